"""Threads refused by the operating system, and one processor alone: the same bytes."""

import os
import subprocess

from .program import FORMS, Skipped, differs

NOBODY = 65534
AS_NOBODY = {"user": NOBODY, "group": NOBODY, "extra_groups": []} if os.geteuid() == 0 else {}


def cases(program):
    for form in FORMS:
        yield f"{form.name}: ulimit -u", refused(program, form)
        yield f"{form.name}: one processor", on_one_processor(program, form)


def limits_bite():
    """Whether the limit keeps a shell from starting a process, as it keeps the program from starting a thread."""
    done = subprocess.run(["bash", "-c", "ulimit -u 0 && (exit 0)"], capture_output=True, check=False, **AS_NOBODY)
    return done.returncode != 0


def refused(program, form):
    def judge():
        if not limits_bite():
            raise Skipped("ulimit -u refuses nothing here")
        before = ["bash", "-c", 'ulimit -u 0 && exec "$0" "$@"']
        return differs(form.want(), program.end(form.words, form.text, before=before, **AS_NOBODY))

    return judge


def on_one_processor(program, form):
    def judge():
        first = min(os.sched_getaffinity(0))
        return differs(form.want(), program.end(form.words, form.text, before=["taskset", "-c", str(first)]))

    return judge
