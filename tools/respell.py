#!/usr/bin/env python3
"""Turns the names that this repository gives to its definitions, lemmas, fields and constructors
from dashes and inner capitals to snake case, and its types to camel case.

usage: python3 tools/respell.py        at the top of the repository, once, after the kit's port.py

Works on crates/**/*.antt and *.rt, and on what README.md and docs/ name between backticks. Names that the
prover makes (goals, steps of a proof) and names of the library keep their spelling: only what stands below is turned.
"""

import pathlib
import re

# types
CAMEL = """
All-sound As-std Shows-measured
"""

# functions of specs/ whose snake case would be that of a constructor beside them
APART = {"limiterForm": "limiter_form_of", "positionForm": "position_form_of"}

# all others: a dash becomes an underscore, an inner capital an underscore and its small letter
SNAKE = """
a-limiter a-limiter-allow a-measure a-number a-position a-position-allow a-position-get a-position-reset a-position-set
a-rate a-rule a-text above-rate absurd-kinds accepts-walk admission-number admit-form after-it an-admit apart-push
are-same as-rate as-rule as-std ascii-is at-ground backslash-at behind-backslash blank-page broken-at by-test
byte-escaped byte-is byte-less byte-some characters-fewer clear-sequence closed-state closes-head closes-on
closing-walk coded-at coded-byte codes-of colour-cut column-in count-number counted-in counted-on cut-found cut-here
cut-join cut-none cut-nowhere cut-only cut-past digits-solid due-granted due-is ends-inters ends-params escapedByte
false-true faulty-spells few-pass few-refusals filled-length final-fits first-inter first-is first-line fits-row
follows-head form-is front-is front-more front-then given-next halted-end head-kind hex-char house-rule in-inters
inked-in inters-are itself-at joined-push keeps-no keeps-poll keeps-yes kept-fewer kinds-of last-part last-push
later-is later-some least-height least-width lent-laws letters-fewer letters-walk limiter-allow limiter-allow-form
limiter-form limiter-opens listed-none means-all means-one meant-by meant-escaped meant-one measure-answer
measure-form measure-number measured-rows more-inters more-params most-height most-width move-sequence moved-within
named-solid newline-at next-begun no-allow no-byte-nil no-escape no-form no-rate no-rate-there no-rule no-text-word
no-texts no-x none-for none-mapped none-plus none-some not-false number-apart number-choice number-decimal
number-is-word number-left octets-are off-edge on-inters on-params one-octet only-ground open-end other-limiter
passed-more pick-none placed-near placed-rows plain-answer plain-cut plain-rule plus-more position-allow
position-allow-form position-form position-get position-get-form position-opens position-reset position-reset-form
position-set position-set-form rate-is-word renders-admit renders-measure rest-is rest-kinds rows-within rule-is-word
ruleIn said-is said-no said-yes same-form same-itself same-mapped says-one scalar-value scalars-are sequence-some
shift-more shows-measured solid-decimal solid-is some-none sound-push span-append spelled-one spells-back spelt-one
spelt-push split-blanks stop-as stopped-at stops-here stops-on text-then textIn then-part to-inters too-narrow
took-rate utf8-of waits-from walk-inters walk-params well-formed-is with-limiter with-position wraps-on wrong-spelled
wrong-text
"""


def snake(name):
    return re.sub(r"(?<=[a-z])[A-Z]", lambda m: "_" + m.group(0).lower(), name).replace("-", "_")


def camel(name):
    return "".join(part[0].upper() + part[1:] for part in name.split("-"))


NAMES = {n: snake(n) for n in SNAKE.split()} | {n: camel(n) for n in CAMEL.split()} | APART
WORD = re.compile(r"(?<![\w'.-])(?:" + "|".join(re.escape(n) for n in sorted(NAMES, key=len, reverse=True)) + r")(?![\w'-])|"
                  r"(?<=[\w')}]\.)(?:" + "|".join(re.escape(n) for n in sorted(NAMES, key=len, reverse=True)) + r")(?![\w'-])")


def turn(text):
    return WORD.sub(lambda m: NAMES[m.group(0)], text)


def main():
    assert len(set(NAMES.values())) == len(NAMES), "two names fall together"
    for path in sorted(pathlib.Path("crates").rglob("*")):
        if path.suffix not in (".rt", ".antt") or "out" in path.parts:
            continue
        comment = "//" if path.suffix == ".rt" else "--"
        lines = path.read_text(encoding="utf-8").split("\n")
        new = "\n".join(l if l.lstrip().startswith(comment) else turn(l) for l in lines)
        if new != "\n".join(lines):
            path.write_text(new, encoding="utf-8")
    for path in [pathlib.Path("README.md"), *sorted(pathlib.Path("docs").glob("*.md"))]:
        old = path.read_text(encoding="utf-8")
        new = re.sub(r"`[^`\n]*`", lambda m: turn(m.group(0)), old)
        if new != old:
            path.write_text(new, encoding="utf-8")


main()
