"""Texts of exactly a limit's length, and one byte past it. Each limit of a plant has a case in tests/cases."""

from .oracle import SCRIPT_LIMIT, TABLE_LIMIT, ended
from .program import CHECK, LIVE, PATROL, PLANT, SCRIPT, SIM, STAY, SYNTH, TABLE, WORKERS, differs

PLANT_LIMIT = 65536
TOO_LONG = ended(5, line=b"limit: table text\n")
LONG_SCRIPT = ended(5, line=b"limit: script\n")


def filled(front, byte, length):
    return front + byte * (length - len(front))


def cases(program):
    for form in (SYNTH[0], WORKERS[0], STAY[0], PATROL[0]):
        for byte in (b" ", b"\n", b"#", b"x", b"\0"):
            for length in (PLANT_LIMIT - 1, PLANT_LIMIT, PLANT_LIMIT + 1, 2 * PLANT_LIMIT):
                text = filled(PLANT, byte, length)
                yield f"{form.name} of {length} bytes {byte[0]:02x}", judge(program, form, text, form.answer(text))
    for form in (CHECK[0], SIM[0]):
        for front, byte, line in ((b"", b" ", 1), (TABLE, b" ", 16), (TABLE, b"\n", 16), (TABLE[:-4], b"0", 15)):
            malformed = ended(3, line=f"malformed: line {line}\n".encode())
            for length in (TABLE_LIMIT - 1, TABLE_LIMIT, TABLE_LIMIT + 1):
                want = malformed if length <= TABLE_LIMIT else TOO_LONG
                what = f"{form.name} of {len(front)} bytes of a table, then {byte[0]:02x} up to {length}"
                yield what, long_text(program, form, (front, byte, length), want)
    for front, byte, line in (
        (b"", b" ", 1),
        (SCRIPT, b"\n", SCRIPT.count(b"\n") + 1),
        (SCRIPT, b"0", SCRIPT.count(b"\n") + 1),
    ):
        malformed = ended(3, line=f"malformed: line {line}\n".encode())
        for length in (SCRIPT_LIMIT - 1, SCRIPT_LIMIT, SCRIPT_LIMIT + 1):
            want = malformed if length <= SCRIPT_LIMIT else LONG_SCRIPT
            what = f"{LIVE[0].name} of {len(front)} bytes of a script, then {byte[0]:02x} up to {length}"
            yield what, long_text(program, LIVE[0], (front, byte, length), want)


def judge(program, form, text, want):
    def judged():
        return differs(want, program.end(form.words, text))

    return judged


def long_text(program, form, parts, want):
    """Texts of 64 MiB are made when they are needed, one for each processor at a time."""

    def judged():
        return differs(want, program.end(form.words, filled(*parts)))

    return judged
