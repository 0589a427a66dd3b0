"""What every program of tools/ does alike: its words, its input, its output, and one line for what is wrong."""

from __future__ import annotations

import argparse
import importlib
import importlib.util
import io
import os
import sys
from typing import Callable, NoReturn, Optional

from .faults import Failure, Trouble

# The folder in which the package lies.
PARENT = os.path.dirname(os.path.dirname(os.path.realpath(__file__)))
DEBIAN, DEBIAN_MODULES = "/usr/bin/python3", ("/usr/lib/python3/dist-packages", "/usr/local/lib/python3/dist-packages")


class Arguments(argparse.ArgumentParser):
    """A parser of words whose complaint is one line."""

    def error(self, message: str) -> NoReturn:
        raise Trouble(f"{message}; see --help", 2)


def read_bytes(path: str) -> bytes:
    """The bytes of a file, or of standard input for `-`."""
    if path == "-":
        if sys.stdin is None:
            raise Trouble("standard input is closed")
        return sys.stdin.buffer.read()
    try:
        with open(path, "rb") as file:
            return file.read()
    except OSError as error:
        raise Trouble(f"{path}: {error.strerror}") from None


def prefer(*modules: str) -> None:
    """Goes over to Debian's Python, once, where this one lacks a module that Debian's has. For programs, before they
    read anything."""
    missing = [module for module in modules if not importlib.util.find_spec(module)]
    if not missing or os.environ.get("GAFFCURRANT_PYTHON") or not os.path.exists(DEBIAN):
        return
    if sum(map(is_in_debian, modules)) > len(modules) - len(missing):
        os.environ["GAFFCURRANT_PYTHON"] = missing[0]
        # That Python has to find this package too, which pip may have put beside this one's.
        os.environ["PYTHONPATH"] = os.pathsep.join([PARENT, *filter(None, [os.environ.get("PYTHONPATH")])])
        os.execv(DEBIAN, [DEBIAN, os.path.abspath(sys.argv[0])] + sys.argv[1:])


def is_in_debian(module: str) -> bool:
    return any(os.path.isdir(os.path.join(folder, module)) for folder in DEBIAN_MODULES)


# What Debian calls the packages of modules.
PACKAGES = {
    "numpy": "python3-numpy",
    "mpmath": "python3-mpmath",
    "matplotlib": "python3-matplotlib",
    "PIL": "python3-pil",
}


def need(what: str, *modules: str) -> None:
    """Goes over to a Python that has some modules, or raises Trouble with the names of all that are missing."""
    prefer(*modules)
    check_there(what, *modules)


def check_there(what: str, *modules: str) -> None:
    """Raises Trouble with the names of all modules that are missing."""
    if missing := [module for module in modules if not is_there(module)]:
        packages = " ".join(PACKAGES[module] for module in missing)
        raise Trouble(
            f"{what} needs {', '.join(missing[:-1])}{' and ' * (len(missing) > 1)}{missing[-1]}; on Debian: "
            f"apt-get install {packages}"
        )


def is_there(module: str) -> bool:
    """Whether a module can be loaded; matplotlib, which makes a folder for its settings when it is, has to be found
    alone."""
    if module == "matplotlib" or not importlib.util.find_spec(module):
        return bool(importlib.util.find_spec(module))
    try:
        importlib.import_module(module)
    except ImportError:
        return False
    return True


def start(name: str, main: Callable[[list[str]], Optional[int]]) -> None:
    """Calls main with the words, and ends the process with its status. No traceback for what a user may do."""
    status = 0
    # Long sums are deep trees.
    sys.setrecursionlimit(20_000)
    try:
        if sys.stdout is None:
            raise Trouble("standard output is closed")
        # Units have signs that an encoding of the system may lack.
        if isinstance(sys.stdout, io.TextIOWrapper):
            sys.stdout.reconfigure(encoding="utf-8", errors="backslashreplace")
        status = main(sys.argv[1:]) or 0
        sys.stdout.flush()
    except Trouble as trouble:
        status = complain(name, str(trouble), trouble.status)
    except Failure as failure:
        status = complain(name, failure.said(), 1)
    except BrokenPipeError:
        status = complain(name, "the reader of standard output has gone", 1)
    except OSError as error:
        where = f"{error.filename}: " if error.filename else "standard output: "
        status = complain(name, where + (error.strerror or str(error)), 1)
    except (MemoryError, RecursionError):
        status = complain(name, "no memory", 1)
    except KeyboardInterrupt:
        status = 130
    # What is left in a buffer that can't be written would raise once more at the interpreter's end.
    os._exit(finish(status))


def complain(name: str, said: str, status: int) -> int:
    try:
        print(f"{name}: {' '.join(said.split())}", file=sys.stderr, flush=True)
    except (OSError, AttributeError, ValueError):
        pass
    return status


def finish(status: int) -> int:
    for stream in (sys.stdout, sys.stderr):
        try:
            if stream is not None:
                stream.flush()
        except (OSError, ValueError):
            status = status or 1
    return status
