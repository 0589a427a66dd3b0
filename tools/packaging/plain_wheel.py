"""Makes a wheel of the module and of the programs by Python's standard library alone. setup.py takes the version from
here."""

from __future__ import annotations

import base64
import hashlib
import re
import tarfile
import zipfile
from pathlib import Path
from typing import Optional

TOOLS = Path(__file__).resolve().parents[1]
MODULE, NAME = "gaffcurrant_plant", "gaffcurrant_plant"
# The file of the module that says where the launcher lies that it runs.
ORIGIN = f"{MODULE}/ORIGIN"


def version() -> str:
    """The program's version."""
    citation = TOOLS.parent / "CITATION.cff"
    found = re.search(r"^version: (\S+)$", citation.read_text(), re.M) if citation.exists() else None
    return found.group(1) if found else "0"


def origin() -> str:
    return f"{TOOLS.parent}\n"


def section(name: str) -> dict[str, str]:
    """The lines of a section of pyproject.toml, by what stands before the sign."""
    text = (TOOLS / "pyproject.toml").read_text()
    lines = found_in(rf"^\[{re.escape(name)}\]\n(.*?)(?=^\[|\Z)", text)[1].splitlines()
    pairs = (line.partition(" = ") for line in lines if " = " in line)
    return {key: value for key, _, value in pairs}


def found_in(pattern: str, text: str) -> re.Match[str]:
    """What stands in a text that has to have it; `.` is any sign, `^` and `$` are the ends of lines."""
    found = re.search(pattern, text, re.M | re.S)
    if not found:
        raise LookupError(f"nothing is like {pattern}")
    return found


def programs() -> list[Path]:
    """The programs of tools/: files without an ending that Python runs."""
    return sorted(
        path
        for path in TOOLS.iterdir()
        if path.is_file() and not path.suffix and path.read_bytes().startswith(b"#!/usr/bin/env python3")
    )


def metadata() -> str:
    project = section("project")
    lines = [
        "Metadata-Version: 2.1",
        "Name: gaffcurrant-plant",
        f"Version: {version()}",
        f"Requires-Python: {project['requires-python'][1:-1]}",
        f"Summary: {project['description'][1:-1]}",
    ]
    for extra, names in section("project.optional-dependencies").items():
        lines += [f"Provides-Extra: {extra}"] + [
            f'Requires-Dist: {name}; extra == "{extra}"' for name in re.findall('"(.*?)"', names)
        ]
    return "\n".join(lines) + "\n"


def entry_points() -> str:
    return "".join(
        ["[console_scripts]\n"] + [f"{name} = {call[1:-1]}\n" for name, call in section("project.scripts").items()]
    )


def module_files() -> list[Path]:
    """The files of the module: its code, and the parts of the page."""
    return sorted(path for path in (TOOLS / MODULE).rglob("*") if path.is_file() and "__pycache__" not in path.parts)


def contents() -> tuple[dict[str, bytes], str]:
    """The files of the wheel, by their names in it."""
    files = {str(path.relative_to(TOOLS)): path.read_bytes() for path in module_files()}
    files[ORIGIN] = origin().encode()
    info = f"{NAME}-{version()}.dist-info"
    files[f"{info}/METADATA"] = metadata().encode()
    files[f"{info}/WHEEL"] = b"Wheel-Version: 1.0\nGenerator: gaffcurrant\nRoot-Is-Purelib: true\nTag: py3-none-any\n"
    files[f"{info}/entry_points.txt"] = entry_points().encode()
    return files, info


def build_wheel(
    wheel_directory: str, config_settings: Optional[object] = None, metadata_directory: Optional[str] = None
) -> str:
    files, info = contents()
    record = []
    for name, data in files.items():
        digest = base64.urlsafe_b64encode(hashlib.sha256(data).digest()).rstrip(b"=").decode()
        record.append(f"{name},sha256={digest},{len(data)}")
    files[f"{info}/RECORD"] = "\n".join([*record, f"{info}/RECORD,,", ""]).encode()
    wheel = f"{NAME}-{version()}-py3-none-any.whl"
    with zipfile.ZipFile(Path(wheel_directory) / wheel, "w", zipfile.ZIP_DEFLATED) as archive:
        for name, data in files.items():
            archive.writestr(name, data)
    return wheel


def build_sdist(sdist_directory: str, config_settings: Optional[object] = None) -> str:
    name = f"{NAME}-{version()}"
    with tarfile.open(Path(sdist_directory) / f"{name}.tar.gz", "w:gz") as archive:
        for path in [TOOLS / "pyproject.toml", TOOLS / "setup.py", TOOLS / "packaging", TOOLS / MODULE, *programs()]:
            archive.add(
                path, f"{name}/{path.relative_to(TOOLS)}", filter=lambda one: None if "__pycache__" in one.name else one
            )
    return f"{name}.tar.gz"
