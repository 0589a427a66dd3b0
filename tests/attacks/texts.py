"""Damaged texts: what the program answers to each is what the oracle does."""

from .program import CHECK, LIVE, PATROL, SIM, STAY, SYNTH, UPGRADE, differs

# A blank, a tab, a carriage return, a line feed, and bytes that begin, end or spoil words.
BYTES = b" \t\r\n#-09x+(\x00\x7f\x80\xff."


def damaged(program):
    """Each byte is deleted, doubled, and replaced."""
    for form in SYNTH + CHECK + UPGRADE + SIM + STAY[:1] + PATROL[:1] + LIVE[:1]:
        text = form.text
        for at in range(len(text)):
            front, byte, behind = text[:at], text[at : at + 1], text[at + 1 :]
            yield case(program, form, f"byte {at} deleted", front + behind)
            yield case(program, form, f"byte {at} doubled", front + byte + byte + behind)
            for other in BYTES:
                yield case(program, form, f"byte {at} replaced by {other:02x}", front + bytes([other]) + behind)


def cut(program):
    """The front of each length, the whole included; and the whole with one byte more."""
    for form in SYNTH + CHECK + UPGRADE + SIM + STAY[:1] + PATROL[:1] + LIVE[:1]:
        for at in range(len(form.text) + 1):
            yield case(program, form, f"cut at {at}", form.text[:at])
        for byte in BYTES:
            yield case(program, form, f"with {byte:02x} behind it", form.text + bytes([byte]))


def case(program, form, what, text):
    def judge():
        return differs(form.answer(text), program.end(form.words, text))

    return f"{form.name}, {what}", judge
