"""Writes manual pages: of a program by what its --help prints, of the C library by its header."""

from __future__ import annotations

import re
from typing import Iterable, Sequence

from plain_wheel import found_in

# What stands between a name and what it is.
DASH = "\\-"
# Signs of which troff would make others; the backslash is the first, as the others get one.
SIGNS = {"\\": "\\e", "-": DASH, "`": "\\(ga", "'": "\\(aq", "^": "\\(ha", "~": "\\(ti"}
ABOUT = "synthesises table controllers for plants; the program is proved"
PROVED = ("The program was proved before it was built; docs/CLAIM.md says what of it is proved.", "It has these forms.")
INCLUDE = "#include <gaffcurrant.h>"


class Pages:
    """Pages of one version, for the programs gaffcurrant-NAME by their names: each method answers them as texts by
    their files' names."""

    def __init__(self, version: str, date: str, programs: Sequence[str]) -> None:
        self.version, self.date = version, date
        self.programs = programs

    def title(self, name: str, section: int) -> str:
        return f'.TH {plain(name.upper())} {section} "{self.date}" "gaffcurrant {self.version}" "Gaffcurrant"'

    @staticmethod
    def head(name: str, about: str) -> list[str]:
        return [".SH NAME", f"{plain(name)} {DASH} {plain(lowered(about))}", ".SH SYNOPSIS"]

    def of_installed(self, text: str) -> str:
        """A text that names programs of the repository names those that are installed."""
        named = re.sub(rf"\btools/({'|'.join(self.programs)})\b", r"gaffcurrant-\1", text)
        return named.replace("./gaffcurrant", "gaffcurrant")

    def launcher(self, forms: str) -> dict[str, str]:
        """The page of the program, by its forms."""
        head, *rest = forms.rstrip("\n").split("\n")
        pairs = [re.split(r" {2,}", line.strip(), maxsplit=1) for line in rest if line.startswith("  ")]
        lines = [self.title("gaffcurrant", 1), ".SH NAME", f"gaffcurrant {DASH} {ABOUT}", ".SH SYNOPSIS"]
        lines += separated([plain(form) for form, _ in pairs], ".br")
        lines += [".SH DESCRIPTION", *PROVED]
        for form, what in pairs:
            lines += [".TP", f".B {plain(form)}", plain(what[0].upper() + what[1:] + ".")]
        lines += [".PP", *(plain(line) for line in rest if not line.startswith("  "))]
        others = [f"gaffcurrant-{name}(1)" for name in self.programs]
        return {"gaffcurrant.1": joined(lines + see_also([*others, "gaffcurrant(3)"]))}

    def tool(self, name: str, help_text: str) -> dict[str, str]:
        """The page of a program of tools/."""
        usage, about, *rest = self.of_installed(help_text).rstrip("\n").split("\n\n")
        usage = usage.replace("usage: ", "").replace("\n" + " " * len("usage: "), "\n" + " " * len("gaffcurrant-"))
        name = f"gaffcurrant-{name}"
        about = " ".join(about.split())
        first, _, more = about.partition(". ")
        lines = [self.title(name, 1), *self.head(name, first.rstrip(".")), *verbatim(f"gaffcurrant-{usage}")]
        if more:
            lines += [".SH DESCRIPTION", plain(more)]
        while rest and re.match(r"(positional arguments|options|optional arguments):\n", rest[0]):
            lines += [f".SH {'ARGUMENTS' if rest[0].startswith('positional') else 'OPTIONS'}", *options(rest.pop(0))]
        if rest:
            lines += [".SH NOTES", *verbatim("\n\n".join(rest))]
        return {f"{name}.1": joined(lines + see_also(["gaffcurrant(1)"]))}

    def library(self, header: str) -> dict[str, str]:
        """A page of the whole header, and one of each call, by the comment that stands before it."""
        whole = found_in(r"\A/\* gaffcurrant\.h: (.*?)\*/", header)[1]
        comment = r"^/\* ((?:(?!\*/).)*)\*/\n"
        calls = re.findall(
            rf"{comment}((?:u?int32_t|void) (gaffcurrant_\w+)\([^;]*\);)", header, re.DOTALL | re.MULTILINE
        )
        answers = re.findall(r"^#define (GAFFCURRANT_\w+) +(\(?-?\d+\)?) */\* (.*?) \*/$", header, re.MULTILINE)
        ((said, struct),) = re.findall(rf"{comment}(struct gaffcurrant \{{.*?\}};)", header, re.DOTALL | re.MULTILINE)
        names = [name for *_, name in calls]
        first, *rest = paragraphs(whole)
        lines = [
            self.title("gaffcurrant", 3),
            *self.head("gaffcurrant", first.rstrip(".")),
            *verbatim(INCLUDE),
            ".PP",
            *verbatim(struct),
            ".PP",
            *verbatim("\n".join(call for _, call, _ in calls)),
            ".SH DESCRIPTION",
            *told(rest + paragraphs(said)),
            ".SH ANSWERS",
        ]
        for name, number, what in answers:
            lines += [".TP", f".B {plain(name)} {plain(number.strip('()'))}", plain(what)]
        pages = {"gaffcurrant.3": joined(lines + see_also([f"{name}(3)" for name in names]))}
        for comment, call, name in calls:
            said = paragraphs(comment)
            first = said[0].partition(". ")[0].rstrip(".")
            pages[f"{name}.3"] = joined(
                [
                    self.title(name, 3),
                    *self.head(name, first),
                    *verbatim(INCLUDE),
                    ".PP",
                    *verbatim(call),
                    ".SH DESCRIPTION",
                    *told(said),
                    *see_also(["gaffcurrant(3)"]),
                ]
            )
        return pages


def plain(text: str) -> str:
    """Text as troff prints it: backslashes, signs that it would make others of, and lines that it would take for its
    own."""
    for sign, name in SIGNS.items():
        text = text.replace(sign, name)
    return re.sub(r"^(?=\.)", r"\\&", text, flags=re.MULTILINE)


def verbatim(text: str) -> list[str]:
    return [".nf", *(plain(line) for line in text.split("\n")), ".fi"]


def lowered(text: str) -> str:
    return text[0].lower() + text[1:]


def separated(lines: Iterable[str], between: str) -> list[str]:
    return [part for line in lines for part in (between, line)][1:]


def joined(lines: Iterable[str]) -> str:
    return "\n".join(lines) + "\n"


def see_also(others: Sequence[str]) -> list[str]:
    return [".SH SEE ALSO", ", ".join(plain(other) for other in others)] if others else []


def options(part: str) -> list[str]:
    """The arguments of a --help, one after another, each with what it says of it."""
    lines = []
    for line in part.split("\n")[1:]:
        entry = re.match(r"  (\S.*?)(?: {2,}(.*))?$", line)
        if entry and not line.startswith("   "):
            lines += [".TP", f".B {plain(entry.group(1))}", *([plain(entry.group(2))] if entry.group(2) else [])]
        elif line.strip():
            lines.append(plain(line.strip()))
    return lines


def paragraphs(comment: str) -> list[str]:
    """The paragraphs of a comment; a line that begins with `- ` begins one too."""
    text = "\n".join(line.strip() for line in comment.split("\n"))
    return [" ".join(part.split()) for part in re.split(r"\n\n|\n(?=- )", text) if part.strip()]


def told(parts: Iterable[str]) -> list[str]:
    lines = []
    for part in parts:
        lines += [".IP \\(bu 2", plain(part[2:])] if part.startswith("- ") else [".PP", plain(part)]
    return lines
