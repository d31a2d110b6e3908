"""The reference: terminals.

A grid of rows with a cursor, written out from the table of operations; and an emulator that reads a byte stream with
one regular expression. The byte terminal of this reference is asked for its screen twice, by the operations and by
its bytes, and the two must be the same.
"""

import re

LEAST_WIDTH, MOST_WIDTH = 2, 512
LEAST_HEIGHT, MOST_HEIGHT = 1, 256
MOST_BUFFER = 2**20
FINAL = {"up": "A", "down": "B", "right": "C", "left": "D"}

# What a byte stream is made of: clear line, return, line feed, a move, a colour sequence, a character.
UNIT = re.compile(r"(\r\x1b\[2K)|(\r)|(\n)|\x1b\[([1-9][0-9]*)([ABCD])|(\x1b\[[0-?]*[ -/]*m)|(.)", re.S)


def size_refused(width, height):
    return not (LEAST_WIDTH <= width <= MOST_WIDTH and LEAST_HEIGHT <= height <= MOST_HEIGHT)


class Screen:
    def __init__(self, width, height, rule):
        self.width, self.height, self.rule = width, height, rule
        self.rows = [[" "] * width for _ in range(height)]
        self.row = self.column = 0

    def next_row(self):
        self.column = 0
        if self.row + 1 < self.height:
            self.row += 1
        else:
            self.rows = self.rows[1:] + [[" "] * self.width]

    def put(self, c):
        w = self.rule(ord(c))
        if w == 0:
            return
        if self.column + w > self.width:
            self.next_row()
        self.rows[self.row][self.column : self.column + w] = [c] + [""] * (w - 1)
        self.column += w

    def move(self, way, n):
        if n == 0:
            return
        self.column = min(self.column, self.width - 1)
        if way == "up":
            self.row = max(0, self.row - n)
        elif way == "down":
            self.row = min(self.height - 1, self.row + n)
        elif way == "right":
            self.column = min(self.width - 1, self.column + n)
        else:
            self.column = max(0, self.column - n)

    def clear_line(self):
        self.rows[self.row] = [" "] * self.width
        self.column = 0

    def read(self, stream):
        """What an emulator makes of the bytes."""
        for clear, back, feed, count, final, colour, c in UNIT.findall(stream.decode("utf-8")):
            if clear:
                self.clear_line()
            elif back:
                self.column = 0
            elif feed:
                self.next_row()
            elif final:
                self.move({letter: way for way, letter in FINAL.items()}[final], int(count))
            elif c:
                self.put(c)

    def shown(self):
        return "".join(f"|{''.join(row)}|\n" for row in self.rows) + f"cursor {self.row} {self.column}"


class Terminal:
    """A grid, or a byte terminal over a buffer of some size; `credit` is a number of bytes or None."""

    def __init__(self, width, height, rule, characters, buffer=None):
        self.made = (width, height, rule)
        self.screen = Screen(*self.made)
        self.characters = characters
        self.on_bytes = buffer is not None
        self.credit = buffer
        self.stream = b""

    def operate(self, name, argument=None):
        """Does one operation: its count for a move, its text for a write."""
        if name in ("write", "line") and self.characters(argument) is None:
            return "refused 6"
        spelled = self.spelled(name, argument)
        if self.credit is not None:
            if len(spelled) > self.credit:
                return "refused 9"
            self.credit -= len(spelled)
        self.stream += spelled
        self.done(name, argument)
        return "ok"

    def spelled(self, name, argument):
        if name in FINAL:
            return f"\x1b[{argument}{FINAL[name]}".encode() if argument else b""
        return {"clear": b"\r\x1b[2K", "return": b"\r", "flush": b""}.get(name, argument) if name != "line" else argument + b"\n"

    def done(self, name, argument):
        if name in FINAL:
            self.screen.move(name, argument)
        elif name == "clear":
            self.screen.clear_line()
        elif name == "return":
            self.screen.column = 0
        elif name in ("write", "line"):
            for c in self.characters(argument):
                self.screen.put(c)
            if name == "line":
                self.screen.next_row()

    def shown(self):
        if self.on_bytes:
            again = Screen(*self.made)
            again.read(self.stream)
            assert again.shown() == self.screen.shown(), self.stream
        return self.screen.shown()
