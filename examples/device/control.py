"""From the measured state to the input, by a table, a stay text or a patrol text. Run with a text's name, it answers states, one a line; with the
checksum of the text behind it, it refuses another one; with --watch it stops where the rank doesn't fall as the text promises."""

import os
import sys
import zlib
from bisect import bisect_right
from math import prod

HEADS = (["table", "1"], ["table", "2"], ["stay", "1"], ["patrol", "1"])


class Rows:
    """Row lines, each about a cell, of 3 words, or about a run of cells, of 4; raises ValueError where they aren't rows of so many cells and vectors."""

    def __init__(self, lines, wide, cells, vectors):
        if not all(len(line) == wide and all(word.isdecimal() or word == "-" for word in line) for line in lines):
            raise ValueError("a row line isn't of its form: the text was changed")
        self.first = [int(line[0]) for line in lines]
        self.last = [int(line[-3]) for line in lines]
        self.rank = [line[-2] for line in lines]
        self.input = [line[-1] for line in lines]
        rises = all(first <= last < after for first, last, after in zip(self.first, self.last, self.first[1:] + [cells]))
        if not rises or any(word != "-" and int(word) >= vectors for word in self.input):
            raise ValueError("a row line isn't about a cell and an input of the table's plant: the text was changed")

    def at(self, cell):
        """The words of a row's rank and input, or None where the cell has no row."""
        row = bisect_right(self.first, cell) - 1
        return None if row < 0 or cell > self.last[row] else (self.rank[row], self.input[row])


class Controller:
    """turn: of a patrol, the number of the target that the plant is on its way to; it goes on with the states that are asked for. falls: whether the rank
    has fallen, at the last state that was asked for, as the text promises; where it hasn't, a disturbance, a sensor or the timing is out of its
    range: stop safely. checksum: the CRC-32 of the text's bytes, as tools/header writes it."""

    def __init__(self, text, checksum=None):
        self.checksum = zlib.crc32(text.encode("ascii"))
        if checksum not in (None, self.checksum):
            raise ValueError(f"the text has the checksum {self.checksum:08x}, not {checksum:08x}: it is another table, or was changed")
        lines = [line.split() for line in text.splitlines()]
        if not lines or lines[0] not in HEADS or lines[-1] != ["end"]:
            heads = ", ".join(f"`{' '.join(head)}`" for head in HEADS)
            raise ValueError(f"this is no table: it begins with one of {heads}, and ends with `end`")
        front = lines[:lines.index(["end"])]
        self.states = [state_of(line[1:]) for line in front if line[:1] == ["state"]]
        self.inputs = [list(map(int, line[2:])) for line in front if line[:1] == ["input"]]
        self.targets = [list(map(int, line[1:])) for line in front if line[:1] == ["target"]]
        self.is_patrol, self.turn, self.has_begun = lines[0][0] == "patrol", 0, False
        self.falls, self.last_rank = True, None
        self.rows = self.rows_of(lines[len(front) + 1:-1], 3 if lines[0] == ["table", "1"] else 4)

    def rows_of(self, lines, wide):
        """The rows of each turn, or the one part of a text that has no turns; each begins with a line that counts its row lines."""
        parts, at = [], 0
        cells = prod((high - low + 1) // width for _, low, high, width in self.states)
        heads = [["turn", str(turn), "rows"] for turn in range(len(self.targets))] if self.is_patrol else [["rows"]]
        for head in heads:
            *words, count = lines[at] if at < len(lines) else [""]
            if words != head or not count.isdecimal():
                raise ValueError(f"a line `{' '.join(head)} N` is due: the text was changed, or cut off")
            parts.append(Rows(lines[at + 1:at + 1 + int(count)], wide, cells, prod(map(len, self.inputs))))
            at += 1 + int(count)
        if at != len(lines):
            raise ValueError("there are more or fewer row lines than are counted: the text was changed, or cut off")
        return parts

    def control(self, state):
        """The values of the inputs; `arrived` in the target of a table, `no row` where nothing is promised."""
        if len(state) != len(self.states):
            names = " ".join(name for name, *_ in self.states)
            raise ValueError(f"a state of this table has {len(self.states)} numbers ({names}), here are {len(state)}")
        self.falls, cell = False, self.cell_of(list(map(whole, state)))
        if cell is None:
            return "no row"
        if self.is_patrol and self.has_begun and self.rows:
            self.visit(state, cell)
        self.has_begun = True
        row = self.rows[self.turn].at(cell) if self.rows else None
        if row is None:
            return "no row"
        self.watch(*row)
        return "arrived" if row[1] == "-" else self.values(int(row[1]))

    def cell_of(self, state):
        cell = 0
        for value, (_, low, high, width) in zip(state, self.states):
            if not low <= value <= high:
                return None
            cell = cell * ((high - low + 1) // width) + (value - low) // width
        return cell

    def watch(self, rank, choice):
        """Compares the rank with the one before. In the target of a table the promise has ended; with goal keep there are no ranks."""
        now, before = 0 if rank == "-" else int(rank), self.last_rank
        self.falls = before is None or now < before or now == before == 0
        self.last_rank = None if choice == "-" else now

    def restart(self):
        """Forgets the rank of the last sample, before a new start."""
        self.last_rank = None

    def visit(self, state, cell):
        """Begins the next turn where the state's cell lies in the turn's target, and has a row for the next turn."""
        after = (self.turn + 1) % len(self.rows)
        ends = zip(self.targets[self.turn][::2], self.targets[self.turn][1::2])
        firsts = [value - (value - low) % width for value, (_, low, _, width) in zip(state, self.states)]
        widths = [width for *_, width in self.states]
        if all(low <= first and first + width - 1 <= high for first, width, (low, high) in zip(firsts, widths, ends)):
            if self.rows[after].at(cell) is not None:
                self.turn, self.last_rank = after, None

    def values(self, number):
        """The values of the inputs in an input vector, of which the first varies slowest."""
        applied = []
        for values in reversed(self.inputs):
            applied.insert(0, values[number % len(values)])
            number //= len(values)
        return applied


def state_of(words):
    """Name, least and greatest number, and width of a cell, by the words of a line."""
    if len(words) != 4 or int(words[1]) > int(words[2]) or int(words[3]) < 1:
        raise ValueError(f"`state {' '.join(words)}` is no line of a state: the text was changed")
    return words[0], *map(int, words[1:])


def whole(value):
    """A whole number; raises ValueError for a fraction, an infinity and what is no number."""
    try:
        number = int(value)
    except (ValueError, OverflowError, TypeError):
        number = None
    if number is None or number != value:
        raise ValueError(f"`{value}` is no whole number of units, floor(value / unit)")
    return number


def number_of(word):
    """A whole number in decimal digits."""
    if not word.removeprefix("-").isdecimal() or len(word) > 19:
        raise ValueError(f"`{word[:40]}` is no whole number of up to 18 digits")
    return int(word)


def answer_states(name, checksum, watches):
    # The bytes as they are, for the checksum.
    with open(name, encoding="ascii", newline="") as file:
        controller = Controller(file.read(), checksum)
    for line in sys.stdin.buffer:
        answer = controller.control([number_of(word) for word in line.decode("ascii").split()])
        if watches and answer != "no row" and not controller.falls:
            raise ValueError("the rank hasn't fallen as the table promises")
        print(answer if isinstance(answer, str) else " ".join(map(str, answer)), flush=True)


def checksum_of(words):
    """The checksum that the words give, or None; raises ValueError where they are no checksum."""
    if len(words) > 1 or any(len(word) > 8 or word.strip("0123456789abcdef") for word in words):
        raise ValueError("give the name of a table, and the checksum of its text, eight digits as 0a1b2c3d; states come on standard input, one a line")
    return int(words[0], 16) if words else None


def main(words):
    """Ends with 1 and a line on standard error at the first state or table that can't be read, and with 2 at wrong words."""
    watches, words = "--watch" in words, [word for word in words if word != "--watch"]
    try:
        checksum = checksum_of(words[1:])
    except ValueError as error:
        print(f"control.py: {error}", file=sys.stderr)
        return 2
    if not words:
        print("control.py: give the name of a table; states come on standard input, one a line", file=sys.stderr)
        return 2
    try:
        answer_states(words[0], checksum, watches)
    except UnicodeDecodeError:
        print("control.py: there is a byte that is no ASCII character; save the text without a byte order mark", file=sys.stderr)
    except (ValueError, IndexError, OSError) as error:
        print(f"control.py: {error}", file=sys.stderr)
    else:
        return 0
    # What can't be written any more would raise once more at the interpreter's end.
    os.dup2(os.open(os.devnull, os.O_WRONLY), 1)
    return 1


if __name__ == "__main__":
    sys.exit(main(sys.argv[1:]))
