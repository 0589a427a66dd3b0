"""Reads a PNG file by the standard library, and finds the frame of its first panel."""

import struct
import zlib


class Picture:
    """rows: for each line of pixels, from above, the bytes of its pixels."""

    def __init__(self, data):
        self.width, self.height, self.step, self.rows = decoded(data)
        self.left, self.right, self.top, self.bottom = self.frame()

    def colour(self, x, y):
        at = x * self.step
        return tuple(self.rows[y][at : at + 3])

    def is_dark(self, x, y):
        return max(self.colour(x, y)) < 70

    def frame(self):
        """The panel's black frame: the first two columns, and in them the rows, that are black over a long way."""
        columns = groups(
            [x for x in range(self.width) if sum(self.is_dark(x, y) for y in range(self.height)) > 0.55 * self.height]
        )
        left, right = columns[0], columns[1]
        rows = groups(
            [
                y
                for y in range(self.height)
                if sum(self.is_dark(x, y) for x in range(int(left), int(right))) > 0.9 * (right - left)
            ]
        )
        return left, right, rows[0], rows[-1]

    def at(self, axis, value, low, high):
        """The pixel of a value along the panel's first or second axis."""
        part = (value - low) / (high - low)
        return (
            self.left + part * (self.right - self.left) if axis == 0 else self.bottom - part * (self.bottom - self.top)
        )

    def extent_of(self, colour, near):
        """The ends, across and down, of the pixels of about this colour in the frame."""
        found = [
            (x, y)
            for y in range(int(self.top) - 2, int(self.bottom) + 3)
            for x in range(int(self.left) - 2, int(self.right) + 3)
            if all(abs(a - b) <= near for a, b in zip(self.colour(x, y), colour))
        ]
        if not found:
            return None
        across, down = [x for x, _ in found], [y for _, y in found]
        return (min(across), max(across)), (min(down), max(down))

    def is_white(self, x, y):
        return min(self.colour(round(x), round(y))) > 250

    def is_grey(self, x, y):
        colour = self.colour(round(x), round(y))
        return max(colour) - min(colour) < 25 and 60 < min(colour) < 225


def groups(numbers):
    """The middles of runs of numbers that follow one another."""
    runs = []
    for number in numbers:
        if runs and number == runs[-1][-1] + 1:
            runs[-1].append(number)
        else:
            runs.append([number])
    return [sum(run) / len(run) for run in runs]


def decoded(data):
    """Width, height, bytes to a pixel, and the lines of a PNG file with 8 bits a channel."""
    if data[:8] != b"\x89PNG\r\n\x1a\n":
        raise ValueError("no PNG file")
    at, packed = 8, b""
    while at < len(data):
        length, kind = struct.unpack(">I4s", data[at : at + 8])
        if kind == b"IHDR":
            width, height, depth, form = struct.unpack(">IIBB", data[at + 8 : at + 18])
        elif kind == b"IDAT":
            packed += data[at + 8 : at + 8 + length]
        at += 12 + length
    if depth != 8 or form not in (2, 6):
        raise ValueError("not of 8 bits a channel in colour")
    step = {2: 3, 6: 4}[form]
    raw, lines, before = zlib.decompress(packed), [], bytes(width * step)
    for y in range(height):
        at = y * (width * step + 1)
        before = unfiltered(raw[at], bytearray(raw[at + 1 : at + 1 + width * step]), before, step)
        lines.append(before)
    return width, height, step, lines


def unfiltered(kind, line, before, step):
    """A line of pixels from what its filter has left of it."""
    for i, byte in enumerate(line):
        left, above = (line[i - step] if i >= step else 0), before[i]
        corner = before[i - step] if i >= step else 0
        line[i] = (byte + (0, left, above, (left + above) // 2, paeth(left, above, corner))[kind]) & 255
    return bytes(line)


def paeth(left, above, corner):
    guess = left + above - corner
    return min((left, above, corner), key=lambda one: abs(guess - one))
