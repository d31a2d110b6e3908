#!/usr/bin/env python3
"""The byte terminal beside a real terminal emulator, tmux.

    (cd crates/rack && rt run) && python3 compare/tmux.py [RUNS [SEED]]

Each run is a random script on a byte terminal. `rack --raw` writes its bytes, tmux shows them in a pane of the same
size, and tmux's screen and cursor must be those that `rack` prints for `screen`. Where tmux is known to differ
(docs/DIFFERENCES.md, 'Real terminals'), the script does not go; the differences are shown by scripts of their own.
"""

import subprocess
import sys
import tempfile
import time
from pathlib import Path

from terminals import FINAL, Terminal
from vectors import RULES, Dice, characters, spell

RACK = Path(__file__).resolve().parent.parent / "crates" / "rack" / "out" / "rack"
SOCKET = "rigolzoe-compare"
WORDS = [b"a", b"bc", b"def", b"", b" ", b"ghijklmn", "一".encode(), "x一y二".encode(), "e\u0301".encode(), b"\x1b[1;32mok\x1b[m", b"\x1b[2mdim"]

# name, width, height, operations, and what is shown here and by tmux
KNOWN = [
    ("left from column W", 4, 1, ["op write abcd", "op left 1", "op write X"], "|abXd|", "|abcX|"),
    ("half a wide character overwritten", 4, 1, ["op write 一b", "op return", "op write x"], "|xb|", "|x b |"),
    ("a move by more than 2^31 - 1", 4, 1, ["op write abc", "op left 2147483648", "op write X"], "|Xbc |", "|abcX|"),
]


def tmux(*words):
    return subprocess.run(["tmux", "-L", SOCKET, "-f", "/dev/null", *words], check=True, capture_output=True).stdout


def emulated(stream, width, height):
    """The screen that tmux shows after these bytes."""
    with tempfile.NamedTemporaryFile() as file:
        file.write(stream)
        file.flush()
        done = f"{file.name}.done"
        shell = f"cat {file.name}; touch {done}; sleep 100"
        tmux("new-session", "-d", "-s", "run", "-x", str(width), "-y", str(height), shell, ";", "set", "status", "off", ";", "resize-window", "-x", str(width), "-y", str(height))
        try:
            for _ in range(200):
                if Path(done).exists():
                    break
                time.sleep(0.01)
            time.sleep(0.03)
            rows = tmux("capture-pane", "-p", "-N", "-t", "run").decode().split("\n")[:height]
            cursor = tmux("display-message", "-p", "-t", "run", "#{cursor_y} #{cursor_x} #{pane_width} #{pane_height}").decode().split()
        finally:
            tmux("kill-server")
            Path(done).unlink(missing_ok=True)
    assert cursor[2:] == [str(width), str(height)], cursor
    return rows, (int(cursor[0]), int(cursor[1]))


def ours(script):
    """The screen that rack prints at the end of a script, and the bytes that it writes."""
    trace = subprocess.run([RACK, "-"], input=script, check=True, capture_output=True).stdout
    raw = subprocess.run([RACK, "--raw", "-"], input=script, check=True, capture_output=True).stdout
    lines = trace.decode().rstrip("\n").split("\n")
    at = max(i for i, line in enumerate(lines) if line == "> screen")
    row, column = lines[-1].split()[1:]
    return [line[1:-1] for line in lines[at + 1 : -1]], (int(row), int(column)), raw


def splits_wide(screen, text):
    """Whether writing the text here overwrites one half of a wide character, or moves up a row that has one."""
    row, column = screen.row, screen.column
    for c in characters(text):
        w = screen.rule(ord(c))
        if w == 0:
            continue
        if column + w > screen.width:
            row, column = row + 1, 0
        if row >= screen.height:
            return any("" in cells for cells in screen.rows)
        cells = screen.rows[row] + [" "]
        if cells[column] == "" or cells[column + w] == "":
            return True
        column += w
    return False


def random_script(dice):
    width, height, rule = 2 + dice.below(9), 1 + dice.below(5), dice.one_of(["plain", "house"])
    words = WORDS if rule == "house" else [word for word in WORDS if all(b < 128 for b in word)]
    lines = [b"terminal bytes 4096 %d %d %s" % (width, height, rule.encode())]
    terminal = Terminal(width, height, RULES[rule], characters, 4096)
    for _ in range(5 + dice.below(25)):
        pick = dice.below(10)
        if pick < 4:
            way, n = dice.one_of(list(FINAL)), dice.one_of([0, 1, 1, 2, 3, 100])
            if way == "left" and terminal.screen.column == width:
                continue
            lines.append(b"op %s %d" % (way.encode(), n))
            terminal.operate(way, n)
        elif pick < 6:
            name = dice.one_of(["clear", "return", "flush"])
            lines.append(b"op " + name.encode())
            terminal.operate(name)
        else:
            name, text = dice.one_of(["write", "write", "line"]), dice.one_of(words)
            if splits_wide(terminal.screen, text):
                continue
            lines.append(b"op %s %s" % (name.encode(), spell(text)))
            terminal.operate(name, text)
    return b"\n".join(lines + [b"screen", b""]), width, height


def same(script, width, height):
    rows, (row, column), raw = ours(script)
    seen, (y, x) = emulated(raw, width, height)
    fill = lambda line: line.rstrip(" ")
    return list(map(fill, rows)) == list(map(fill, seen)) and (row, min(column, width)) == (y, x), (rows, (row, column), seen, (y, x))


def known():
    for name, width, height, lines, here, there in KNOWN:
        script = "\n".join([f"terminal bytes 4096 {width} {height} house", *lines, "screen", ""]).encode()
        rows, _, raw = ours(script)
        seen, _ = emulated(raw, width, height)
        assert f"|{rows[0]}|" == here and seen[0].rstrip(" ") == there.strip("|").rstrip(" "), (name, rows, seen)
        print(f"differs as documented: {name}")


def main(words):
    runs, seed = (list(map(int, words)) + [200, 1][len(words) :])[:2]
    dice = Dice(seed)
    for i in range(runs):
        script, width, height = random_script(dice)
        equal, found = same(script, width, height)
        if not equal:
            sys.exit(f"run {i} differs: {found}\n{script.decode()}")
    print(f"{runs} runs from seed {seed}: screens and cursors equal")
    known()


if __name__ == "__main__":
    main(sys.argv[1:])
