"""`check` beside a few lines of brute force that know the line's plant: each digit of each row changed in turn; and
each example's table with one row changed."""

from .tool_case import TOP, ToolCase

FRONT = ["table 1", "plant 1", "state x 0 14 3", "input u -3 3", "next x = x + u", "target 12 14", "goal reach", "end"]
ROWS = ["0 4 1", "1 3 1", "2 2 1", "3 1 1", "4 0 -"]


class Tables(ToolCase):
    """Tables of which something was changed."""

    def check(self, text):
        """What the program says of a table."""
        _, output, error = self.execute(("check",), text)
        return (output or error).decode().strip()

    def test_line(self):
        for number, column, other in changes():
            changed = list(ROWS)
            changed[number] = ROWS[number][:column] + other + ROWS[number][column + 1 :]
            text = "\n".join(FRONT + ["rows 5"] + changed + ["end", ""]).encode()
            cell, rank = changed[number].split(" ")[:2]
            is_dash = "-" in cell or rank == "-"
            wanted = f"malformed: line {10 + number}" if is_dash else answer(changed)
            self.equal(f"check of the row `{changed[number]}`", wanted, self.check(text))

    def test_examples(self):
        for path in sorted((TOP / "examples").glob("*/*.table")):
            text = path.read_bytes()
            self.equal(f"check of {path.name}", "valid", self.check(text))
            if path.stem != "line":
                cell, changed = with_a_rank_more(text)
                self.equal(f"check of {path.name} with a rank more", f"invalid: cell {cell}", self.check(changed))


def changes():
    """Each digit or dash of each row, with each that may stand in its place."""
    for number, line in enumerate(ROWS):
        for column, digit in enumerate(line):
            for other in "0123456789-" if digit != " " else "":
                yield number, column, other


def successor(cell, number):
    """The one cell that an input leads to: one to the left or to the right, where that is on the line."""
    next_cell = cell + (-1, 1)[number]
    return next_cell if 0 <= next_cell <= 4 else None


def is_right(cell, rows):
    """Whether a cell's row is what its successors' rows demand."""
    row = rows.get(cell)
    if cell == 4:
        return row == (0, None)
    ranks = {u: rows[successor(cell, u)][0] for u in (0, 1) if successor(cell, u) in rows}
    if row is None:
        return len(ranks) < sum(successor(cell, u) is not None for u in (0, 1)) and not ranks
    if not ranks or row[0] == 0:
        return False
    least = min(ranks.values())
    return row == (least + 1, min(u for u in ranks if ranks[u] == least))


def answer(lines):
    """What `check` has to say of the row lines, by their words."""
    last, rows = -1, {}
    for number, line in enumerate(lines, 10):
        row = row_of(line, last)
        if row is None:
            return f"malformed: line {number}"
        last, *rest = row
        rows[last] = tuple(rest)
    wrong = [cell for cell in range(5) if not is_right(cell, rows)]
    return f"invalid: cell {wrong[0]}" if wrong else "valid"


def row_of(line, last):
    """The cell, the rank and the input of a row line behind the line of a cell, or None where it is none."""
    words = line.split(" ")
    numbers = cell, rank, chosen = [None if word == "-" else int(word) for word in words]
    if None in (cell, rank) or words != ["-" if number is None else str(number) for number in numbers]:
        return None
    fits = last < cell < 5 and rank < 5 and (chosen is None) == (rank == 0) and chosen in (None, 0, 1)
    return numbers if fits else None


def with_a_rank_more(text):
    """The table, of either version, with the greatest rank raised by one in one line, and the first cell of the line,
    which is the least that is wrong then: no other rank counts on it."""
    lines = text.decode().split("\n")
    rows = next(k for k, line in enumerate(lines) if line.startswith("rows "))
    at = max(range(rows + 1, len(lines) - 2), key=lambda k: int(lines[k].split()[-2]))
    words = lines[at].split()
    lines[at] = " ".join(words[:-2] + [str(int(words[-2]) + 1), words[-1]])
    return words[0], "\n".join(lines).encode()
