"""Each public call that takes memory is reached by the program, by a crate of tests, or by the C programs of
tests/library.

It reads names and no types: a method is taken for reached where any method of its name is called, a function of a type
where the type's name stands before it. So it finds calls that nobody makes, and not each of them."""

import re
from collections import defaultdict

from .tool_case import TOP, ToolCase

FN = re.compile(r'^( *)(pub |pub\([^)]*\) )?(?:const |unsafe |extern "C" )*fn (\w+)', re.M)
IMPL = re.compile(r"^impl(?:<[^{]*?>)? (?:[\w:<>', ]+ for )?(?:&\w* )?(\w+)[^{]*\{", re.M)
COMMENT = re.compile(r"//.*")
NAMED = re.compile(r"(?:(\w+)(?:::<[^;(]*?>)?::|(\.)\s*)?\b([a-z_]\w*)\b")


class Memory(ToolCase):
    """Public calls that take memory."""

    def test_calls_are_reached(self):
        found = all_functions(TOP)
        found["Board", "spare"].append(("cell_counters", True, "pub fn spare(alloc: Global)", ""))
        seen = reached(found, exports(TOP))
        calls = takers(found)
        self.holds("the calls that take memory are found", len(calls) > 40, len(calls))
        for crate, owner, name in calls:
            what = f"{crate} {owner + '::' if owner else ''}{name} is reached by the program or a test"
            self.equal(what, name != "spare", (owner, name) in seen)


def owners(text):
    """The blocks of methods: where each begins and ends, and whose they are."""
    for block in IMPL.finditer(text):
        end = text.find("\n}", block.start())
        yield block.start(), end, block.group(1)


def functions(text):
    """The functions of a file: owner or '', name, whether it is public, its head, its body."""
    blocks = list(owners(text))
    heads = list(FN.finditer(text))
    for head, after in zip(heads, heads[1:] + [None]):
        owner = next((name for start, end, name in blocks if start < head.start() < end), "")
        whole = text[head.start() : after.start() if after else len(text)]
        closing = whole.find("\n" + head.group(1) + "}")
        whole = whole[: closing if closing >= 0 else len(whole)]
        opening = re.search(r"\{$", whole, re.M)
        cut = opening.start() if opening else len(whole)
        yield owner, head.group(3), head.group(2) == "pub ", whole[:cut], whole[cut:]


def all_functions(top):
    """Each function of each crate by its owner and name, as (crate, is public, head, body)."""
    found = defaultdict(list)
    for path in sorted(top.glob("crates/*/src/**/*.rt")):
        crate = path.relative_to(top / "crates").parts[0]
        for owner, name, public, head, body in functions(COMMENT.sub("", path.read_text())):
            found[owner, name].append((crate, public, head, body))
    return found


def exports(top):
    """The calls of the C library that the C programs of the tests name."""
    calls = (re.findall(r"\bgaffcurrant_\w+", path.read_text()) for path in top.glob("tests/library/*.c"))
    return {name for names in calls for name in names}


def reached(found, called_by_c):
    """The owners and names that the program, the crates of tests and these calls lead to."""
    by_name = defaultdict(list)
    for owner, name in found:
        by_name[name].append((owner, name))
    todo = [("", name) for name in called_by_c]
    todo += [item for item, entries in found.items() if any(begins(crate) for crate, *_ in entries)]
    seen = set()
    while todo:
        item = todo.pop()
        if item not in seen:
            seen.add(item)
            for *_, body in found[item]:
                todo += called_in(body, by_name)
    return seen


def begins(crate):
    """Whether what a crate has is reached by itself."""
    return crate == "synth_cli" or crate.endswith("_tests")


def called_in(body, by_name):
    """What the names in a body may call."""
    for owner, dot, name in NAMED.findall(body):
        for other in by_name.get(name, ()):
            of_type = other[0] != ""
            is_method = dot and of_type
            is_function = not dot and (owner in (other[0], "Self") or not of_type or len(owner) == 1)
            if is_method or is_function:
                yield other


def takers(found):
    """The public calls with an allocator, outside the crates of tests, as (crate, owner, name)."""
    return [(entries[0][0], *item) for item, entries in found.items() if any(map(takes_memory, entries))]


def takes_memory(entry):
    crate, is_public, head, _ = entry
    return is_public and re.search(r"\balloc: ", head) and not crate.endswith("_tests")
