#!/usr/bin/env python3
"""Outside vectors: replay scripts and the trace that they must give.

The trace is computed here, by a reference that shares nothing with the crates: Python's own UTF-8 decoder,
a regular expression for colour sequences, and the rules of measure and of the limiters written out once more.

    python3 compare/vectors.py            writes crates/vectors/data/*.rack, crates/vectors/stdout and crates/rack/stdout
    python3 compare/vectors.py --check    compares them; status 1 where one differs
"""

import re
import sys
from pathlib import Path

CRATE = Path(__file__).resolve().parent.parent / "crates" / "vectors"
RACK = CRATE.parent / "rack"
LAST = 2**64 - 1
MS = 1_000_000
SECOND = 1000 * MS

# ---- The reference: text

# The octet sequences of RFC 3629, section 4: a second opinion on Python's decoder.
RFC_3629 = re.compile(
    rb"(?:[\x00-\x7f]"
    rb"|[\xc2-\xdf][\x80-\xbf]"
    rb"|\xe0[\xa0-\xbf][\x80-\xbf]|[\xe1-\xec][\x80-\xbf]{2}|\xed[\x80-\x9f][\x80-\xbf]|[\xee-\xef][\x80-\xbf]{2}"
    rb"|\xf0[\x90-\xbf][\x80-\xbf]{2}|[\xf1-\xf3][\x80-\xbf]{3}|\xf4[\x80-\x8f][\x80-\xbf]{2})*"
)
COLOUR = re.compile(r"\x1b\[[0-?]*[ -/]*m")


def characters(text):
    """The characters of a text outside its colour sequences, or None where the text is not admissible."""
    try:
        decoded = text.decode("utf-8")
    except UnicodeDecodeError:
        decoded = None
    assert (decoded is not None) == bool(RFC_3629.fullmatch(text)), text
    if decoded is None:
        return None
    kept = COLOUR.sub("", decoded)
    if any(ord(c) < 32 or 127 <= ord(c) <= 159 for c in kept):
        return None
    return kept


def plain(code):
    return 1


def house(code):
    if 0x0300 <= code <= 0x036F:
        return 0
    wide = [(0x1100, 0x115F), (0x4E00, 0x9FFF), (0xAC00, 0xD7A3), (0xFF01, 0xFF60)]
    return 2 if any(first <= code <= last for first, last in wide) else 1


RULES = {"plain": plain, "house": house}


def admit(text):
    return "refused 6" if characters(text) is None else "ok"


def measure(width, rule, text):
    if not 2 <= width <= 512:
        return "refused 1"
    if len(text) > 128:
        return "refused 7"
    kept = characters(text)
    if kept is None:
        return "refused 6"
    rows, column = 1, 0
    for c in kept:
        w = RULES[rule](ord(c))
        if column + w > width:
            rows, column = rows + 1, w
        else:
            column += w
    return f"rows {rows} column {column}"


# ---- The reference: limiters


class RateLimiter:
    def __init__(self, rate, now):
        self.interval = 1000 // rate * MS
        self.capacity = 20
        self.prev = now

    def allow(self, now):
        if now < self.prev:
            return False
        whole, rest = divmod(now - self.prev, self.interval)
        if self.capacity == 0 and whole == 0:
            return False
        self.capacity = min(20, self.capacity + whole - 1)
        self.prev = now - rest
        return True


class Position:
    def __init__(self, start):
        self.start = start
        self.at = 0
        self.capacity = 10
        self.prev = 0

    def allow(self, now):
        if now < self.start:
            return False
        passed = now - self.start
        whole, rest = divmod(max(0, passed - self.prev), MS)
        if self.capacity == 0 and whole == 0:
            return False
        self.capacity = min(10, self.capacity + whole - 1)
        self.prev = passed - rest
        return True

    def reset(self, now):
        self.at = 0
        self.prev = max(0, now - self.start)


# ---- The reference: scripts

ESCAPE = re.compile(rb"\\(\\|n|x[0-9A-Fa-f]{2})|\\")


def meant(text):
    """The bytes that TEXT spells."""

    def byte(found):
        kind = found[1]
        if kind is None:
            raise ValueError(text)
        if kind[:1] == b"x":
            return bytes([int(kind[1:], 16)])
        return b"\n" if kind == b"n" else b"\\"

    return ESCAPE.sub(byte, text)


def number(word):
    if not re.fullmatch(rb"[0-9]+", word) or int(word) > LAST:
        raise ValueError(word)
    return int(word)


class Replay:
    def __init__(self):
        self.limiter = None
        self.position = None

    def answer(self, line):
        verb, _, rest = line.partition(b" ")
        if verb == b"admit":
            return admit(meant(rest))
        if verb == b"measure":
            width, rule, text = (rest.split(b" ", 2) + [b""])[:3]
            return measure(number(width), rule.decode(), meant(text))
        words = rest.split(b" ")
        if verb == b"limiter":
            return self.rate(*words)
        if verb == b"position":
            return self.place(*words)
        raise ValueError(line)

    def rate(self, word, argument):
        if word == b"allow":
            return "yes" if self.limiter.allow(number(argument)) else "no"
        rate, now = number(word), number(argument)
        if rate > 255:
            raise ValueError(rate)
        if rate == 0:
            return "refused 3"
        self.limiter = RateLimiter(rate, now)
        return "ok"

    def place(self, word, *argument):
        if word == b"get" and not argument:
            return f"position {self.position.at}"
        if not argument:
            self.position = Position(number(word))
            return "ok"
        (n,) = map(number, argument)
        if word == b"allow":
            return "yes" if self.position.allow(n) else "no"
        if word == b"reset":
            self.position.reset(n)
        elif word == b"set":
            self.position.at = n
        else:
            raise ValueError(word)
        return "ok"


def commands(script):
    return [line for line in script.split(b"\n") if line and not line.startswith(b"#")]


def replay(script):
    """The commands of a script, each with its answer."""
    run = Replay()
    return [(line, run.answer(line)) for line in commands(script)]


def trace(script):
    return b"".join(b"> %s\n%s\n" % (line, answer.encode()) for line, answer in replay(script))


def summary(script):
    answers = [answer for _, answer in replay(script)]
    refused = sum(answer.startswith("refused") for answer in answers)
    return b"--\ncommands %d\nrefused %d\n" % (len(answers), refused)


# ---- Writing scripts


class Dice:
    """splitmix64: the same numbers with every Python."""

    def __init__(self, seed):
        self.state = seed

    def below(self, n):
        self.state = (self.state + 0x9E3779B97F4A7C15) & LAST
        z = self.state
        z = (z ^ (z >> 30)) * 0xBF58476D1CE4E5B9 & LAST
        z = (z ^ (z >> 27)) * 0x94D049BB133111EB & LAST
        return (z ^ (z >> 31)) % n

    def one_of(self, things):
        return things[self.below(len(things))]


def spell(text, upper=False, raw=False):
    """TEXT for some bytes; raw leaves UTF-8 as it is."""
    form = "\\x{:02X}" if upper else "\\x{:02x}"
    out = bytearray()
    for i, b in enumerate(text):
        if b == 92:
            out += b"\\\\"
        elif 33 <= b <= 126 or (b == 32 and i + 1 < len(text)) or (raw and b >= 128):
            out.append(b)
        else:
            out += form.format(b).encode()
    return bytes(out)


class Script:
    """The lines of a script; `expect` is the answer known beforehand, and the reference must give it too."""

    def __init__(self):
        self.lines = []
        self.expected = []

    def note(self, words):
        if self.lines:
            self.lines.append(b"")
        self.lines.append(b"# " + words.encode())

    def put(self, line, expect=None):
        self.lines.append(line if isinstance(line, bytes) else line.encode())
        self.expected.append(expect)

    def admit(self, text, expect=None, **how):
        known = None if expect is None else "ok" if expect else "refused 6"
        self.put(b"admit " + spell(text, **how), known)

    def measure(self, width, rule, text, expect=None, **how):
        self.put(b"measure %d %s %s" % (width, rule.encode(), spell(text, **how)), expect)

    def allow(self, who, now, *answers):
        """The same question, once for each answer."""
        for answer in answers:
            self.put(f"{who} allow {now}", answer)

    def finished(self, ended=True):
        script = b"\n".join(self.lines) + (b"\n" if ended else b"")
        answered = replay(script)
        assert len(answered) == len(self.expected)
        for (line, answer), expect in zip(answered, self.expected):
            assert expect in (None, answer), (line, answer, expect)
        return script


def u(code):
    return chr(code).encode("utf-8")


YES, NO = "yes", "no"


# ---- utf8.rack


def utf8_rack():
    s = Script()

    s.note("The empty text, missing or of no bytes; a space; a backslash; printable ASCII, first to last.")
    s.put("admit", "ok")
    s.put("admit ", "ok")
    s.put("admit  ", "ok")
    s.put("admit \\\\", "ok")
    s.put("admit \\x5C", "ok")
    s.admit(bytes(range(32, 127)), True)
    s.put("admit  # a text, no comment", "ok")

    s.note("Control code points: U+0000 to U+001F, U+007F, U+0080 to U+009F. U+0020, U+007E and U+00A0 are none.")
    for c in range(32):
        s.admit(u(c), False)
    s.put("admit \\n", "refused 6")
    for c in range(0x7F, 0xA0):
        s.admit(u(c), False)
    for c in [0x20, 0x7E, 0xA0, 0xAD]:
        s.admit(u(c), True)
    for c in [0x00, 0x09, 0x0A, 0x0D, 0x1F, 0x7F, 0x80, 0x85, 0x9F]:
        s.admit(b"a" + u(c) + b"b", False)

    s.note("First and last code point of each length, around the surrogates, noncharacters, the last of all.")
    for c in [0x7FF, 0x800, 0xFFF, 0x1000, 0xCFFF, 0xD000, 0xD7FF, 0xE000, 0xFDD0, 0xFDEF, 0xFFFC, 0xFFFD, 0xFFFE, 0xFFFF]:
        s.admit(u(c), True)
    for c in [0x10000, 0x1FFFE, 0x1FFFF, 0x3FFFF, 0x40000, 0xFFFFF, 0x100000, 0x10FFFE, 0x10FFFF]:
        s.admit(u(c), True)
    s.admit(b"\xf4\x90\x80\x80", False)
    s.admit(b"\xf4\x90\x80\x80", False, upper=True)
    s.admit(b"\xf7\xbf\xbf\xbf", False)

    s.note("Each row of the octet table: its leads, and the followers from one below the range to one above.")
    tail = (0x80, 0xBF)
    rows = [
        ((0xC2, 0xDF), [tail]),
        ((0xE0, 0xE0), [(0xA0, 0xBF), tail]),
        ((0xE1, 0xEC), [tail, tail]),
        ((0xED, 0xED), [(0x80, 0x9F), tail]),
        ((0xEE, 0xEF), [tail, tail]),
        ((0xF0, 0xF0), [(0x90, 0xBF), tail, tail]),
        ((0xF1, 0xF3), [tail, tail, tail]),
        ((0xF4, 0xF4), [(0x80, 0x8F), tail, tail]),
    ]
    for leads, followers in rows:
        for lead in sorted(set(leads)):
            # Of the last lead in a row only the first follower is varied.
            for place, (lo, hi) in enumerate(followers if lead == leads[0] else followers[:1]):
                for b in [lo - 1, lo, hi, hi + 1]:
                    octets = [lead] + [f[b != lo] for f in followers]
                    octets[1 + place] = b
                    control = lead == 0xC2 and b == 0x80
                    s.admit(bytes(octets), lo <= b <= hi and not control)

    s.note("Octets from 128 on, alone: first and last of each kind, and all that no character has.")
    for b in [0x80, 0xBF, 0xC2, 0xDF, 0xE0, 0xED, 0xEF, 0xF0, 0xF4, 0xC0, 0xC1, *range(0xF5, 0x100)]:
        s.admit(bytes([b]), False, upper=b % 16 == 10)

    s.note("Overlong forms of 2, 3 and 4 octets, and of 5 and 6: of NUL, of a solidus, the greatest.")
    for octets in ["c080", "c0af", "c1bf", "e08080", "e080af", "e09fbf", "f0808080", "f08080af", "f08fbfbf"]:
        s.admit(bytes.fromhex(octets), False)
    for octets in ["f880808080", "f8808080af", "f887bfbfbf", "fc8080808080", "fc80808080af", "fc83bfbfbfbf"]:
        s.admit(bytes.fromhex(octets), False)

    s.note("Forms of 5 and 6 octets that are not overlong; octets that no form has.")
    for octets in ["f888808080", "fbbfbfbfbf", "fc8480808080", "fdbfbfbfbfbf", "fe", "ff", "feff", "fffe", "fefeffff"]:
        s.admit(bytes.fromhex(octets), False)
    s.admit(u(0xFEFF), True)
    s.admit(u(0xFEFF) + b"bom", True)

    s.note("Surrogates, single and in pairs.")
    for octets in ["eda080", "eda180", "edadbf", "edae80", "edafbf", "edb080", "edbe80", "edbfbf"]:
        s.admit(bytes.fromhex(octets), False)
    for octets in ["eda080edb080", "eda080edbfbf", "edadbfedb080", "edae80edbfbf", "edafbfedb080", "edafbfedbfbf"]:
        s.admit(bytes.fromhex(octets), False)

    s.note("Characters cut short: at the end, before ASCII, before another character, before a colour sequence, before themselves.")
    for whole in [b"\xc3\xa9", b"\xe4\xb8\xad", b"\xf0\x9f\x98\x80"]:
        s.admit(whole, True)
        for n in range(1, len(whole)):
            for after in [b"", b"x", b"\xc3\xa9", b"\x1b[0m", whole]:
                s.admit(b"a" + whole[:n] + after, False)

    s.note("Characters with a wrong follower at each place: ASCII, a lead, an octet that no form has.")
    for whole in [b"\xc3\xa9", b"\xe4\xb8\xad", b"\xf0\x9f\x98\x80"]:
        for place in range(1, len(whole)):
            for b in [0x41, 0xC3, 0xFF]:
                s.admit(whole[:place] + bytes([b]) + whole[place + 1 :], False)

    s.note("Followers without a lead: runs, all of them, one too many behind a whole character.")
    for n in range(2, 8):
        s.admit(bytes([0x80, 0xBF] * 4)[:n], False)
    s.admit(bytes(range(0x80, 0xC0)), False)
    for whole in [b"a", b"\xc3\xa9", b"\xe4\xb8\xad", b"\xf0\x9f\x98\x80"]:
        s.admit(whole + b"\x80", False)
        s.admit(b"\xbf" + whole, False)

    s.note("Leads without followers: each of a length with a space behind it, and the last follower missing, one and all.")
    for first, last in [(0xC0, 0xDF), (0xE0, 0xEF), (0xF0, 0xF7), (0xF8, 0xFB), (0xFC, 0xFD)]:
        s.admit(b"".join(bytes([b, 32]) for b in range(first, last + 1)), False)
    missing = ["c0", "e080", "f08080", "f8808080", "fc80808080", "df", "efbf", "f7bfbf", "fbbfbfbf", "fdbfbfbfbf"]
    for octets in missing:
        s.admit(bytes.fromhex(octets) + b"!", False)
    s.admit(bytes.fromhex("".join(missing)), False)

    s.note("Good text around a fault.")
    faults = ["80", "c3", "c0af", "e4b8", "eda080", "f09f98", "f4908080", "ff", "f8888080", "c29b", "00", "1b"]
    for i, fault in enumerate(map(bytes.fromhex, faults)):
        s.admit([b"good " + u(0xE9) + fault + b" text", u(0x4E2D) + u(0x1F600) + b"." + fault][i % 2], False)
        if i % 3 == 0:
            s.admit(fault + u(0x4E2D) + u(0x1F600), False)

    s.note("Good text, also as it stands; admission has no limit of length.")
    samples = ["κόσμε", "ὕδωρ", "日本語", "한국어", "Ünïcödé", "ａｂｃ", "e\u0301", "😀👍", "a\u2028b", "\u200b", "\u00a0"]
    for i, text in enumerate(samples):
        s.admit(text.encode(), True, raw=i % 2 == 0)
    s.admit("naïve 日本 \\ 😀 ".encode(), True, raw=True)
    s.admit("\u0085".encode(), False, raw=True)
    s.admit("\U0010ffff\ud7ff\ue000".encode(), True, upper=True)
    s.admit(b"a" * 129, True)
    s.admit(u(0x10FFFF) * 75, True)
    s.admit(b"a" * 300 + b"\xc3", False)

    s.note("Measured: each character of any length is one of the rule's, and a fault anywhere refuses.")
    for i, text in enumerate(samples):
        s.measure(3, ["house", "plain"][i % 2], text.encode(), raw=i % 2 == 1, upper=i % 4 == 2)
    for octets in ["80", "c3", "c080", "e09fbf", "eda080", "f08fbfbf", "f4908080", "fe", "c280", "c29f", "7f"]:
        s.measure(10, "plain", b"ab" + bytes.fromhex(octets), "refused 6")
    for c in [0x7FF, 0x800, 0xD7FF, 0xE000, 0xFFFF, 0x10000, 0x10FFFF]:
        s.measure(2, "house", u(c) * 3, "rows 2 column 1")
    return s.finished()


# ---- colour.rack

ESC = b"\x1b"


def colour_rack():
    s = Script()

    # One octet or character of each class, at the edges of its range.
    below = [b"\x00", b"\x1f"]
    intermediates = [b" ", b"/"]
    parameters = [b"0", b"?"]
    finals = [b"@", b"l", b"n", b"~"]
    above = [b"\x7f", u(0x80), u(0x9F), u(0xA0), u(0x16D), u(0x1F56D)]
    faults = [b"\x80", b"\xff"]
    classes = [ESC, b"["] + below + intermediates + parameters + finals + [b"m"] + above + faults

    # What each state makes of the octets that it takes; the rest it refuses.
    in_ground = {b: "ground" for b in intermediates + parameters + finals + [b"[", b"m"] + above[3:]}
    states = {
        "Ground": (b"", in_ground | {ESC: "escaped"}),
        "Escaped": (ESC, {b"[": "parameters"}),
        "Parameters": (ESC + b"[3", {b"0": "parameters", b"?": "parameters", b" ": "inter", b"/": "inter", b"m": "ground"}),
        "Intermediates": (ESC + b"[3 ", {b" ": "inter", b"/": "inter", b"m": "ground"}),
    }
    # Which endings each state takes: they tell the states apart.
    endings = {b"m": {"ground", "parameters", "inter"}, b"0m": {"ground", "parameters"}, b"[m": {"ground", "escaped"}}
    for name, (prefix, moves) in states.items():
        s.note(f"Each class of octet in the state {name}.")
        for b in classes:
            after = moves.get(b)
            for end, taken in endings.items():
                if after is None and end != b"m" and b != ESC:
                    continue
                if name == "Ground" and after == "ground":
                    if end == b"m":
                        s.measure(20, "plain", b"a" + b + end, "rows 1 column 3")
                    continue
                s.admit(prefix + b + end, after in taken)

    s.note("Ended in each state.")
    for text in [b"", ESC + b"[m", ESC + b"[3m", ESC + b"[3 m"]:
        s.admit(text, True)
    for text in [ESC, ESC + b"[", ESC + b"[3", ESC + b"[3;", ESC + b"[ ", ESC + b"[3 "]:
        s.admit(text, False)
        s.measure(10, "plain", b"ab" + text, "refused 6")

    s.note("Whole sequences: no parameters, few, many, each parameter byte, each intermediate byte.")
    whole = [
        b"", b"0", b"1", b"31", b"1;31", b";", b";;;", b"38;5;208", b"38;2;255;128;0;48;2;1;2;3", b"4:3", b"?25", b">4;2",
        b"<=>?", b"0123456789:;<=>?", b" ", b"!", b"/", b"1 ", b"1 !/", bytes(range(32, 48)), b"0123456789:;<=>?" + bytes(range(32, 48)),
    ]
    for inside in whole:
        s.measure(10, "house", b"a" + ESC + b"[" + inside + b"mbc", "rows 1 column 3")

    s.note("Long ones: 128 bytes and 129, and beyond what measure takes.")
    s.measure(2, "plain", ESC + b"[" + b"1" * 125 + b"m", "rows 1 column 0")
    s.measure(2, "plain", ESC + b"[" + b"1" * 126 + b"m", "refused 7")
    s.measure(2, "plain", ESC + b"[" + b" " * 125 + b"m", "rows 1 column 0")
    s.measure(2, "plain", ESC + b"[" + b"1" * 126, "refused 6")
    s.admit(ESC + b"[" + b"1;" * 150 + b"m", True)
    s.admit(ESC + b"[" + b"1;" * 150 + b"n", False)

    s.note("At the start, in the middle, at the end, several in a row, alone.")
    red, off = ESC + b"[31m", ESC + b"[0m"
    s.measure(10, "plain", red + b"ab", "rows 1 column 2")
    s.measure(10, "plain", b"a" + red + b"b", "rows 1 column 2")
    s.measure(10, "plain", b"ab" + off, "rows 1 column 2")
    s.measure(10, "plain", red + b"ab" + off, "rows 1 column 2")
    s.measure(10, "plain", red + off + b"ab", "rows 1 column 2")
    s.measure(10, "plain", red * 3 + b"a" + off * 3 + b"b" + red + off, "rows 1 column 2")
    s.measure(10, "house", red + off, "rows 1 column 0")
    s.measure(2, "house", (ESC + b"[m") * 42, "rows 1 column 0")
    s.measure(2, "plain", (ESC + b"[m") * 42 + b"ab", "rows 1 column 2")
    s.measure(10, "house", red + "日本".encode() + off + "語".encode(), "rows 1 column 6")
    s.measure(10, "plain", red + "日本".encode() + off + "語".encode(), "rows 1 column 3", raw=True)
    s.measure(10, "plain", ESC + b"[1mm", "rows 1 column 1", upper=True)
    s.measure(10, "plain", ESC + b"[mm" + ESC + b"[m[m", "rows 1 column 3", upper=True)
    s.admit(red + b"ok" + off, True, upper=True)

    s.note("The same characters without 27 are text.")
    for text in [b"[m", b"[31m", b"m", b"[", b"31m", b"[0;1 m"]:
        s.measure(10, "plain", text, f"rows 1 column {len(text)}")

    s.note("Other final bytes: no colour, so the 27 is a control.")
    for final in b"KAHJDhls@~":
        s.admit(ESC + b"[2" + bytes([final]), False)
    s.admit(ESC + b"[K", False)
    s.admit(b"a" + ESC + b"[2Kb" + red, False)
    s.admit(ESC + b"[31M", False)

    s.note("Parameters behind intermediates.")
    for inside in [b" 1", b"1 1", b"1!;", b"/?", b" 1 "]:
        s.admit(ESC + b"[" + inside + b"m", False)

    s.note("27 twice, 27 inside a sequence, other escapes, strings, and a sequence taken out of another.")
    for text in [ESC, ESC + b"[m", b"[" + ESC + b"[m", b"[3" + ESC + b"[m", b"[3 " + ESC + b"[m", b"[m" + ESC]:
        s.admit(ESC + text, False)
    for text in [b"c", b"(B", b"7", b"]0;t\x07", b"]8;;" + ESC + b"\\", b"m", b"O", b" F", b"[[m"]:
        s.admit(ESC + text, False)
    for text in [ESC + red + b"[m", ESC + b"[" + red + b"m", ESC + b"[3" + red + b"1m", ESC + b"[1" + off + b" m"]:
        s.admit(text, False)

    s.note("The C1 introducer U+009B opens nothing, nor does the octet 9b.")
    for text in [u(0x9B) + b"31m", u(0x9B), b"\x9b31m", b"a" + u(0x9B) + b"mb"]:
        s.admit(text, False)
    s.measure(10, "plain", u(0x9B) + b"0m", "refused 6")

    s.note("A sequence between the octets of a character, a fault inside a sequence, a fault behind one.")
    for text in [b"\xc3" + red + b"\xa9", b"\xe4\xb8" + off + b"\xad", red + b"\x80", off + b"\xff", b"\xc3" + red]:
        s.admit(text, False)
    for text in [b"\xc3\xa9[m", b"[\xc3m", b"[3\x80m"]:
        s.admit(ESC + text, False)
    s.admit(red + "é".encode() + off, True)

    s.note("Sequences where a row ends: they open no row.")
    s.measure(2, "plain", b"ab" + red, "rows 1 column 2")
    s.measure(2, "plain", b"ab" + red + b"c", "rows 2 column 1")
    s.measure(2, "plain", red + b"a" + red + b"b" + red + b"c" + off, "rows 2 column 1")
    s.measure(3, "house", b"ab" + red + u(0x4E00) + off, "rows 2 column 2")
    s.measure(3, "house", b"a" + red + u(0x4E00) + off + u(0x301), "rows 1 column 3")

    s.note("Put together at random.")
    dice = Dice(27)
    parts = [ESC, ESC + b"[", ESC + b"[1", red, off, ESC + b"[ m"]
    parts += [b"[", b"0", b";", b" ", b"m", b"m", b"a", b"xyz", b"K", u(0xE9), u(0x4E00)]
    for i in range(30):
        text = b"".join(dice.one_of(parts) for _ in range(1 + dice.below(7)))
        if i % 2:
            s.admit(text)
        else:
            s.measure(2 + dice.below(6), dice.one_of(["plain", "house"]), text)
    return s.finished()


# ---- measure.rack


def measure_rack():
    s = Script()
    han, hangul, full, jamo, acute, e = u(0x4E00), u(0xAC00), u(0xFF01), u(0x1100), u(0x301), u(0xE9)

    s.note("No text: missing, or of no bytes.")
    s.put("measure 10 plain", "rows 1 column 0")
    s.put("measure 10 plain ", "rows 1 column 0")
    s.put("measure 10 house", "rows 1 column 0")
    s.put("measure 2 house ", "rows 1 column 0")
    s.put("measure 512 plain", "rows 1 column 0")

    s.note("The least and the greatest length, in bytes of any character.")
    for n, column in [(1, 1), (127, 7), (128, 8)]:
        s.measure(10, "plain", b"a" * n, f"rows {(n + 9) // 10} column {column}")
    s.measure(10, "plain", b"a" * 129, "refused 7")
    s.measure(10, "plain", b"a" * 300, "refused 7")
    s.measure(512, "plain", b"a" * 128, "rows 1 column 128")
    s.measure(10, "plain", e * 64, "rows 7 column 4")
    s.measure(10, "plain", e * 64 + b"a", "refused 7")
    s.measure(10, "house", han * 42 + b"ab", "rows 9 column 6")
    s.measure(10, "house", han * 42 + e, "rows 9 column 5")
    s.measure(10, "house", han * 43, "refused 7")
    s.measure(10, "plain", u(0x1F600) * 32, "rows 4 column 2")
    s.measure(10, "plain", u(0x1F600) * 32 + b"a", "refused 7")
    s.measure(2, "house", b"\\" * 128, "rows 64 column 2")
    s.measure(2, "house", b"\\" * 129, "refused 7")

    s.note("Refusals by 1 before 7 before 6.")
    faulty, long, both = b"\xff", b"a" * 129, b"\xff" * 129
    for width in [0, 1, 513, LAST]:
        for text in [b"a", long, faulty, both]:
            s.measure(width, "plain", text, "refused 1")
    for width in [2, 3, 10, 511, 512]:
        s.measure(width, "house", b"a", "rows 1 column 1")
        s.measure(width, "house", long, "refused 7")
        s.measure(width, "house", faulty, "refused 6")
        s.measure(width, "house", both, "refused 7")
    for width in [1000, 65536 + 10, 2**32 + 10, 2**63 + 10]:
        s.measure(width, "plain", b"a", "refused 1")
    s.measure(0, "house", b"", "refused 1")
    s.measure(513, "house", b"", "refused 1")
    s.measure(10, "house", b"a" * 128 + b"\x1b", "refused 7")
    s.measure(10, "house", b"a" * 127 + b"\x1b", "refused 6")
    s.measure(10, "house", b"a" * 126 + b"\xc3\x28", "refused 6")
    s.measure(10, "house", b"a\nb", "refused 6")
    s.put("measure 0010 plain abc", "rows 1 column 3")
    s.put("measure 00002 plain  ab", "rows 2 column 1")

    s.note("Rows filled exactly, and one more.")
    for width in [2, 3, 10, 64]:
        for n in [width - 1, width, width + 1, 2 * width - 1, 2 * width]:
            rows = max(1, -(-n // width))
            s.measure(width, "plain", (b"abcdefgh" * 16)[:n], f"rows {rows} column {n - width * (rows - 1)}")
    s.measure(10, "plain", b" " * 10, "rows 1 column 10")
    s.measure(10, "plain", b" " * 11, "rows 2 column 1")
    s.measure(126, "plain", b"a" * 127, "rows 2 column 1")
    s.measure(127, "plain", b"a" * 128, "rows 2 column 1")
    s.measure(128, "plain", b"a" * 128, "rows 1 column 128")
    s.measure(2, "house", han * 42, "rows 42 column 2")
    s.measure(84, "house", han * 42, "rows 1 column 84")
    s.measure(83, "house", han * 42, "rows 2 column 2")

    s.note("A wide character where a row ends: with two columns left, with one, with none.")
    for wide in [han, hangul, full, jamo]:
        s.measure(10, "house", b"abcdefgh" + wide, "rows 1 column 10")
        s.measure(10, "house", b"abcdefghi" + wide, "rows 2 column 2")
        s.measure(10, "house", b"abcdefghij" + wide, "rows 2 column 2")
    s.measure(10, "house", b"abcdefghi" + han + b"x", "rows 2 column 3")
    s.measure(10, "plain", b"abcdefghi" + han, "rows 1 column 10")
    s.measure(3, "house", han * 2, "rows 2 column 2")
    s.measure(3, "house", han * 3 + b"a", "rows 3 column 3")
    s.measure(3, "house", (b"a" + han) * 5, "rows 5 column 3")
    s.measure(3, "house", (han + b"a") * 5, "rows 5 column 3")
    s.measure(3, "house", (b"ab" + han) * 5, "rows 8 column 2")
    s.measure(2, "house", han, "rows 1 column 2")
    s.measure(2, "house", han + b"a", "rows 2 column 1")
    s.measure(2, "house", b"a" + han, "rows 2 column 2")
    s.measure(2, "house", b"a" + han + b"a" + han, "rows 4 column 2")
    s.measure(511, "house", b"a" + han * 42, "rows 1 column 85")

    s.note("Marks of width 0 where a row ends: they stay on it; and lines of nothing else.")
    s.measure(2, "house", b"ab" + acute, "rows 1 column 2")
    s.measure(2, "house", b"ab" + acute * 3 + b"c" + acute, "rows 2 column 1")
    s.measure(2, "house", b"a" + acute + b"b" + acute + b"c", "rows 2 column 1")
    s.measure(2, "plain", b"ab" + acute, "rows 2 column 1")
    s.measure(2, "house", han + acute + han + acute, "rows 2 column 2")
    s.measure(3, "house", b"ab" + acute + han, "rows 2 column 2")
    s.measure(10, "house", acute + b"abcdefghij" + acute, "rows 1 column 10")
    s.measure(10, "house", b"abcdefghij" + acute + b"k", "rows 2 column 1")
    s.measure(512, "house", acute, "rows 1 column 0")
    s.measure(2, "house", acute * 64, "rows 1 column 0")
    s.measure(2, "house", acute * 63 + b"ab", "rows 1 column 2")
    s.measure(2, "plain", acute * 64, "rows 32 column 2")
    s.measure(2, "house", acute * 64 + b"a", "refused 7")

    s.note("House against Plain on the same text.")
    samples = ["日本語テキスト", "한글 시험", "ｆｕｌｌ", "e\u0301a\u0300", "\u1100\u1161\u11a8"]
    samples += ["abc", "あいう", "😀😀", "｡｢｣", "mixed 中 e\u0301 ！"]
    for text in samples:
        for rule in ["plain", "house"]:
            s.measure(4, rule, text.encode(), raw=True)

    s.note("The edges of each range of House: one before, first, last, one behind.")
    for first, last, w in [(0x300, 0x36F, 0), (0x1100, 0x115F, 2), (0x4E00, 0x9FFF, 2), (0xAC00, 0xD7A3, 2), (0xFF01, 0xFF60, 2)]:
        for c, cells in [(first - 1, 1), (first, w), (last, w), (last + 1, 1)]:
            s.measure(10, "house", u(c), f"rows 1 column {cells}")
            s.measure(3, "house", b"ab" + u(c), ["rows 1 column 2", "rows 1 column 3", "rows 2 column 2"][cells])
        s.measure(10, "plain", u(first) + u(last), "rows 1 column 2")

    s.note("Colour sequences where a row ends.")
    red, off = ESC + b"[31m", ESC + b"[0m"
    s.measure(10, "plain", b"abcdefghij" + off, "rows 1 column 10")
    s.measure(10, "plain", b"abcdefghij" + red + b"k" + off, "rows 2 column 1")
    s.measure(10, "house", b"abcdefghi" + red + han + off, "rows 2 column 2")
    s.measure(10, "house", b"abcdefgh" + red + han + off, "rows 1 column 10")
    s.measure(2, "house", red + b"ab" + off + acute, "rows 1 column 2")
    s.measure(2, "house", red + acute + off, "rows 1 column 0")
    s.measure(10, "plain", ESC + b"[31mab", "rows 1 column 2")

    s.note("Put together at random.")
    dice = Dice(512)
    parts = [b"a", b"a", b"bc", b" ", b"0123456789", e, acute, acute, han, han, hangul, full, jamo, u(0x1F600), red, off, ESC + b"[1;4 m"]
    for i in range(35):
        text = b"".join(dice.one_of(parts) for _ in range(1 + dice.below(30 if i % 3 else 8)))
        s.measure(2 + dice.below(11), ["house", "house", "plain"][i % 3], text, raw=i % 5 == 0 and ESC not in text)
    return s.finished()


# ---- limiters.rack


def drained(s, rate, t0):
    """A limiter that has answered its burst at its first reading."""
    s.put(f"limiter {rate} {t0}", "ok")
    s.allow("limiter", t0, *[YES] * 20, NO)


def limiters_rack():
    s = Script()

    s.note("Rate 0 is refused, at any reading.")
    s.put("limiter 0 0", "refused 3")
    s.put(f"limiter 0 {LAST}", "refused 3")

    s.note("Rate 20: the burst, then one for each 50 ms; a refused making leaves the limiter in use.")
    drained(s, 20, SECOND)
    s.allow("limiter", SECOND + 50 * MS - 1, NO, NO)
    s.put("limiter 0 0", "refused 3")
    s.put(f"limiter 000 {SECOND}", "refused 3")
    s.allow("limiter", SECOND + 50 * MS - 1, NO)
    s.allow("limiter", SECOND + 50 * MS, YES, NO)
    s.allow("limiter", SECOND + 100 * MS - 1, NO)
    s.allow("limiter", SECOND + 100 * MS, YES, NO)
    s.allow("limiter", SECOND, NO)
    s.allow("limiter", 0, NO)
    s.allow("limiter", SECOND + 150 * MS, YES, NO)

    s.note("After an hour: one from the hour, 20 from the full capacity.")
    s.allow("limiter", 3601 * SECOND, *[YES] * 21, NO)

    for rate, ms in [(3, 333), (7, 142)]:
        j, t0 = ms * MS, rate * SECOND
        s.note(f"Rate {rate}: an interval of {ms} ms. Full and an interval waited: still full after the answer.")
        s.put(f"limiter {rate} {t0 - j}", "ok")
        s.allow("limiter", t0, *[YES] * 21, NO)
        s.allow("limiter", t0 + j - 1, NO)
        s.allow("limiter", t0 + j, YES, NO)
        s.allow("limiter", t0 + 3 * j - 1, YES, NO)
        s.allow("limiter", t0 + 3 * j, YES, NO)

    for rate, ms in [(1, 1000), (255, 3)]:
        j, t0 = ms * MS, rate * SECOND
        s.note(f"Rate {rate}: an interval of {ms} ms.")
        drained(s, rate, t0)
        s.allow("limiter", t0 + j - 1, NO)
        s.allow("limiter", t0 + j, YES, NO)
        s.allow("limiter", t0 + 2 * j - 1, NO)
        s.allow("limiter", t0 + 2 * j + j // 2, YES, NO)
        s.allow("limiter", t0 + 3 * j - 1, NO)
        s.allow("limiter", t0 + 5 * j + 1, YES, YES, YES, NO)
        s.allow("limiter", t0 + 5 * j, NO)
        s.allow("limiter", t0 + 5 * j - 1, NO)
        s.allow("limiter", t0 + 6 * j, YES, NO)

    s.note("Readings that go back: before the last whole interval no, whatever is held; behind it yes.")
    s.put("limiter 20 0500000000", "ok")
    s.allow("limiter", 499999999, NO)
    s.allow("limiter", 0, NO)
    s.allow("limiter", 500 * MS, YES)
    s.allow("limiter", 609 * MS, YES)
    s.allow("limiter", 599999999, NO)
    s.allow("limiter", 600 * MS, YES)
    s.allow("limiter", 608 * MS, YES)
    s.allow("limiter", 500 * MS, NO)

    s.note("The last reading.")
    s.put(f"limiter 1 {LAST}", "ok")
    s.allow("limiter", LAST - 1, NO)
    s.allow("limiter", LAST, YES, YES)
    s.allow("limiter", 0, NO)
    s.put("limiter 255 0", "ok")
    s.allow("limiter", LAST, *[YES] * 21, NO)
    s.allow("limiter", LAST - 3 * MS, NO)

    s.note("The position: set and read; questions leave it.")
    s.put("position 1000000000", "ok")
    s.put("position get", "position 0")
    s.put("position set 42", "ok")
    s.put("position get", "position 42")
    s.allow("position", SECOND, YES)
    s.put("position get", "position 42")
    s.put(f"position set {LAST}", "ok")
    s.put("position get", f"position {LAST}")
    s.put("position get", f"position {LAST}")
    s.put("position set 0", "ok")
    s.put("position get", "position 0")
    s.put("position set 0007", "ok")

    s.note("The burst of ten, then one for each millisecond; below the start no.")
    s.allow("position", SECOND, *[YES] * 9, NO)
    s.allow("position", SECOND - 1, NO)
    s.allow("position", 0, NO)
    s.allow("position", SECOND + 999999, NO)
    s.allow("position", SECOND + 1000000, YES, NO)
    s.allow("position", SECOND + 1999999, NO)
    s.allow("position", SECOND + 2500000, YES, NO)
    s.allow("position", SECOND + 2999999, NO)
    s.allow("position", SECOND + 5000001, YES, YES, YES, NO)
    s.put("position get", "position 7")

    s.note("A long pause fills it; full and a millisecond waited, it is still full after the answer.")
    s.allow("position", 3600 * SECOND, *[YES] * 11, NO)
    s.put("position 5", "ok")
    s.put("position get", "position 0")
    s.allow("position", 4, NO)
    s.allow("position", 5 + MS, *[YES] * 11, NO)

    s.note("Reset keeps the capacity: none is given, and none is lost.")
    s.put("position set 9", "ok")
    s.put(f"position reset {5 + MS}", "ok")
    s.put("position get", "position 0")
    s.allow("position", 5 + MS, NO)
    s.put(f"position reset {5 + 4 * MS}", "ok")
    s.allow("position", 5 + 4 * MS, NO)
    s.allow("position", 5 + 5 * MS - 1, NO)
    s.allow("position", 5 + 5 * MS, YES, NO)
    s.put("position reset 0", "ok")
    s.allow("position", 5 + 2 * MS, YES, YES, NO)
    s.put(f"position reset {LAST}", "ok")
    s.allow("position", 3600 * SECOND, NO)
    s.allow("position", LAST, NO)
    s.put(f"position {SECOND}", "ok")
    s.allow("position", SECOND, YES, YES, YES)
    s.put(f"position reset {SECOND}", "ok")
    s.allow("position", SECOND, *[YES] * 7, NO)

    s.note("Readings that go back: yes while capacity is held, and the time between is earned again.")
    s.put("position 0", "ok")
    s.allow("position", 20 * MS, YES)
    s.allow("position", 10 * MS, YES)
    s.allow("position", 20 * MS, *[YES] * 11, NO)
    s.allow("position", 10 * MS, NO)
    s.allow("position", 21 * MS - 1, NO)
    s.allow("position", 22 * MS, YES)
    s.allow("position", 0, YES, NO)
    s.allow("position", MS, YES)
    s.allow("position", 500000, NO)

    s.note("The last reading.")
    s.put("position 0", "ok")
    s.allow("position", LAST, *[YES] * 11, NO)
    s.allow("position", LAST - 1, NO)
    s.put(f"position {LAST}", "ok")
    s.allow("position", LAST - 1, NO)
    s.allow("position", LAST, YES, YES)
    s.put("position 1", "ok")
    s.allow("position", LAST, YES)
    s.allow("position", 0, NO)

    s.note("Pauses that earn 256, 65536 or 4294967296 with what is held: none comes round to 0.")
    for bits in [8, 16, 32]:
        s.put("limiter 255 0", "ok")
        s.allow("limiter", (2**bits - 19) * 3 * MS, YES, YES)
        s.put("position 0", "ok")
        s.allow("position", (2**bits - 9) * MS, YES, YES)

    s.note("Each of the two by itself.")
    s.put("limiter 255 0", "ok")
    s.put("position 0", "ok")
    s.allow("position", 0, *[YES] * 10, NO)
    s.allow("limiter", 0, YES)
    s.put("limiter 1 0", "ok")
    s.allow("position", 0, NO)

    s.note("Rate limiters at random.")
    dice = Dice(20)
    for rate in [20, 255]:
        j = 1000 // rate * MS
        t = dice.below(1000) * MS + dice.below(MS)
        s.put(f"limiter {rate} {t}", "ok")
        for _ in range(60):
            kind = dice.below(12)
            if kind < 4:
                step = dice.below(3)
            elif kind < 8:
                step = dice.below(j // 2)
            elif kind < 10:
                step = dice.one_of([j - 1, j, j + 1, 2 * j, 3 * j + dice.below(j)])
            else:
                step = -dice.below(2 * j)
            t = max(0, t + step)
            s.allow("limiter", t, None)

    s.note("Positions at random.")
    dice = Dice(10)
    for _ in range(2):
        start = dice.below(1000) * MS + dice.below(MS)
        t = start
        s.put(f"position {start}", "ok")
        for _ in range(60):
            kind = dice.below(16)
            if kind < 5:
                step = dice.below(3)
            elif kind < 9:
                step = dice.below(MS // 2)
            elif kind < 12:
                step = dice.one_of([MS - 1, MS, MS + 1, 2 * MS, 3 * MS + dice.below(MS)])
            elif kind < 14:
                step = -dice.below(3 * MS)
            else:
                step = 0
            t = max(0, t + step)
            if kind == 14:
                s.put(dice.one_of([f"position reset {t}", f"position set {dice.below(LAST)}"]), "ok")
            elif kind == 15:
                s.put("position get")
            else:
                s.allow("position", t, None)
    # The last line of this script has no line end.
    return s.finished(ended=False)


# ---- The files


def demonstration():
    """The script that `rack` has built in, out of its source."""
    source = (RACK / "src" / "demonstration.rt").read_text()
    literal = re.search(r'DEMONSTRATION: &str =\s*"(.*?)";', source, re.S).group(1)
    return literal.replace("\\\\", "\\").encode()


def files():
    scripts = {
        "utf8.rack": utf8_rack(),
        "colour.rack": colour_rack(),
        "measure.rack": measure_rack(),
        "limiters.rack": limiters_rack(),
    }
    out = {CRATE / "data" / name: script for name, script in scripts.items()}
    out[CRATE / "stdout"] = b"".join(b"== %s\n%s" % (name.encode(), trace(script)) for name, script in scripts.items())
    shown = demonstration()
    out[RACK / "stdout"] = trace(shown) + summary(shown)
    return out


def main(words):
    if words not in ([], ["--check"]):
        sys.exit(f"usage: {sys.argv[0]} [--check]")
    differ = 0
    for path, content in files().items():
        name = path.relative_to(CRATE.parent.parent)
        if words:
            if not path.is_file() or path.read_bytes() != content:
                print(f"{name}: differs from what the reference gives", file=sys.stderr)
                differ = 1
        else:
            path.parent.mkdir(parents=True, exist_ok=True)
            path.write_bytes(content)
            print(f"{name}: {len(content)} bytes" + (f", {len(commands(content))} commands" if path.suffix == ".rack" else ""))
    sys.exit(differ)


if __name__ == "__main__":
    main(sys.argv[1:])
