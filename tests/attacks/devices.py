"""Devices that fail, and sources that never end."""

import array
import fcntl
import itertools
import os
import select
import socket
import subprocess
import termios
import time

from . import oracle
from .program import CHECK, DEMO, FORMS, LIVE, PATROL, PLANT, SECONDS, SIM, STAY, SYNTH, UPGRADE, WORKERS, Form, differs

MALFORMED = Form("synth 1", PLANT[:-4], oracle.synth)
USAGE = Form("synth", PLANT, lambda _: oracle.ended(2, line=b"usage\n"))
# A plant whose table has more bytes than a pipe holds: 20,000 cells are kept, by the inputs 1 and 0 in turn, so no two
# neighbours make a run.
LONG = Form(
    "synth 1",
    b"plant 1\nstate x 1 20000 1\ninput u 0 1\nnext x = x + 100000 * (x - 2 * (x / 2)) * (1 - u)\n" b"goal keep\nend\n",
    oracle.synth,
)
READ_FAULT = oracle.ended(6, line=b"read fault\n")
PAGE = 4096


def cases(program):
    yield from of_outputs(program)
    yield from of_sources(program)
    yield from of_closed_streams(program)
    yield from of_long_texts(program)


def of_outputs(program):
    for form in FORMS:
        for name, judge in (
            ("to a full device", full),
            ("with its reader gone", gone),
            ("to a file opened for reading", unwritable),
        ):
            yield f"{form.name} {name}", judge(program, form)
        yield f"{form.name} one byte at a time", slowly(program, form)


def of_sources(program):
    for form in SYNTH + WORKERS + CHECK + UPGRADE + SIM + STAY[:1] + PATROL[:1] + LIVE:
        for path in ("/", "/proc/self/mem"):
            yield f"{form.name} from {path}", from_path(program, form, path)
        yield f"{form.name} from a source opened for writing", unreadable(program, form)
        yield f"{form.name} from a socket", from_socket(program, form)


def of_closed_streams(program):
    for form in FORMS + [MALFORMED, USAGE]:
        for closed in itertools.product((False, True), repeat=3):
            names = [name for name, is_closed in zip(("input", "output", "error"), closed) if is_closed]
            yield f"{form.name} without {' and '.join(names) or 'nothing'}", standing(program, form, closed)
    for form in (MALFORMED, USAGE):
        yield f"{form.name}, its line to a full device", error_full(program, form)


def of_long_texts(program):
    for taken in (0, 1, PAGE, 100000):
        yield f"synth 1 of 20,000 cells, whose reader goes after {taken} bytes", leaves(program, taken)
    yield "synth 1 of 20,000 cells to a small pipe that doesn't wait", small(program)
    for form in SYNTH[:1] + WORKERS[:1] + CHECK[:1] + SIM[:1] + LIVE[:1] + DEMO + [USAGE]:
        for byte in b" \n#\0":
            yield f"{form.name} from 10 GB of {byte:02x}", endless(program, form, bytes([byte]))


def written_part(want, got):
    """Status 7, and no line."""
    return differs((7, b"", b""), got) if want[0] == 0 else differs(want, got)


def end_with(program, form, **streams):
    """How a run ends whose streams are given; what isn't captured counts as empty."""
    given = {"input": form.text} if "stdin" not in streams else {}
    streams = {"stdout": subprocess.PIPE, "stderr": subprocess.PIPE, **streams}
    done = subprocess.run([*program.command, *form.words], timeout=SECONDS, check=False, **given, **streams)
    return done.returncode, done.stdout or b"", done.stderr or b""


def full(program, form):
    def judge():
        with open("/dev/full", "wb") as device:
            return written_part(form.want(), end_with(program, form, stdout=device))

    return judge


def unwritable(program, form):
    def judge():
        with open("/dev/null", "rb") as device:
            return written_part(form.want(), end_with(program, form, stdout=device))

    return judge


def gone(program, form):
    def judge():
        reader, writer = os.pipe()
        os.close(reader)
        try:
            return written_part(form.want(), end_with(program, form, stdout=writer))
        finally:
            os.close(writer)

    return judge


def slowly(program, form):
    """The text comes byte by byte, as a terminal or a network may hand it on."""

    def judge():
        with subprocess.Popen(
            [*program.command, *form.words], stdin=subprocess.PIPE, stdout=subprocess.PIPE, stderr=subprocess.PIPE
        ) as process:
            for byte in form.text:
                os.write(process.stdin.fileno(), bytes([byte]))
                time.sleep(0.0002)
            output, error = process.communicate(timeout=SECONDS)
        return differs(form.want(), (process.returncode, output, error))

    return judge


def from_path(program, form, path):
    def judge():
        descriptor = os.open(path, os.O_RDONLY)
        try:
            return differs(READ_FAULT, end_with(program, form, stdin=descriptor))
        finally:
            os.close(descriptor)

    return judge


def unreadable(program, form):
    def judge():
        with open("/dev/null", "wb") as device:
            return differs(READ_FAULT, end_with(program, form, stdin=device))

    return judge


def from_socket(program, form):
    def judge():
        here, there = socket.socketpair()
        with here, there:
            here.sendall(form.text)
            here.shutdown(socket.SHUT_WR)
            return differs(form.want(), end_with(program, form, stdin=there, stdout=subprocess.PIPE))

    return judge


def standing(program, form, closed):
    """Any of the three standard streams is closed at the start."""
    without_input, without_output, without_error = closed

    def judge():
        want = form.want()
        reads = form.words[0] != "demo" and want[0] != 2
        if without_input and reads:
            want = READ_FAULT
        if without_output and want[0] == 0:
            want = oracle.ended(7)
        want = (want[0], b"" if without_output else want[1], b"" if without_error else want[2])
        signs = "".join(sign for sign, is_closed in zip((" <&-", " >&-", " 2>&-"), closed) if is_closed)
        return differs(want, program.end(form.words, form.text, before=["bash", "-c", f'exec "$0" "$@"{signs}']))

    return judge


def error_full(program, form):
    def judge():
        with open("/dev/full", "wb") as device:
            return differs(form.want()[:1] + (b"", b""), end_with(program, form, stderr=device))

    return judge


def leaves(program, taken):
    """The reader takes so many bytes, and goes."""

    def judge():
        want = LONG.want()[1]
        with subprocess.Popen(
            [*program.command, *LONG.words], stdin=subprocess.PIPE, stdout=subprocess.PIPE, stderr=subprocess.PIPE
        ) as process:
            process.stdin.write(LONG.text)
            process.stdin.close()
            got = process.stdout.read(taken)
            process.stdout.close()
            error = process.stderr.read()
            status = process.wait(SECONDS)
        return differs((7, want[:taken], b""), (status, got, error))

    return judge


def small(program):
    """A pipe with room for one page, which nobody reads, and which refuses what doesn't fit."""

    def judge():
        reader, writer = os.pipe()
        try:
            fcntl.fcntl(writer, fcntl.F_SETPIPE_SZ, PAGE)
            os.set_blocking(writer, False)
            status, _, error = end_with(program, LONG, stdout=writer)
            os.close(writer)
            with open(reader, "rb", closefd=False) as pipe:
                got = pipe.read()
        finally:
            os.close(reader)
        want = LONG.want()[1]
        is_part = want.startswith(got) and got != want
        return differs((7, b""), (status, error)) or (None if is_part else "no part of the table was written")

    return judge


def endless(program, form, byte):
    """Ten gigabytes are offered; what is taken is one byte past the limit of the text, and nothing where none is
    read."""

    def judge():
        if form.words[0] == "demo" or form is USAGE:
            want, most = form.want(), 0
        elif form.words[0] == "synth":
            want, most = oracle.ended(5, line=b"limit: plant text\n"), 65537
        elif form.words[0] == "live":
            want, most = oracle.ended(5, line=b"limit: script\n"), oracle.SCRIPT_LIMIT + 1
        else:
            want, most = oracle.ended(5, line=b"limit: table text\n"), oracle.TABLE_LIMIT + 1
        reader, writer = os.pipe()
        try:
            with subprocess.Popen(
                [*program.command, *form.words], stdin=reader, stdout=subprocess.PIPE, stderr=subprocess.PIPE
            ) as process:
                offered = offer(process, writer, byte, 10**10)
                output, error = process.communicate(timeout=SECONDS)
            taken = offered - left_in(reader)
        finally:
            os.close(reader)
            os.close(writer)
        wrong = differs(want, (process.returncode, output, error))
        return wrong or (None if taken == most else f"{taken} bytes were taken, and not {most}")

    return judge


def offer(process, writer, byte, most):
    """Writes the byte again and again as long as the process runs; answers how often."""
    os.set_blocking(writer, False)
    block, offered = byte * 2**16, 0
    while offered < most and process.poll() is None:
        if select.select([], [writer], [], 0.01)[1]:
            offered += os.write(writer, block[: most - offered])
    return offered


def left_in(reader):
    """How many bytes a pipe holds."""
    count = array.array("i", [0])
    fcntl.ioctl(reader, termios.FIONREAD, count)
    return count[0]
