#!/usr/bin/env python3
"""Brings this repository's own definitions and lemmas to today's spelling: words in snake case, facts in upper camel case.

usage: python3 tools/respell.py [FOLDER]     once, right after the kit's port.py, at the top of FOLDER (default: here)

It goes through crates/*/specs, crates/*/proofs and the ghost text of crates/*/src. Functions, fields, constants, strings,
comments and the names that the checker makes (they stand behind a dot, or begin returns-, loop-, overflow-, ..) stay.
It stops, and writes nothing, where two names would fall together in a file.
"""

import os
import re
import sys

# Names whose new spelling is more than an underscore for each dash.
NAMED = {
    "month?": "named_month",
    "date?": "named_date",
    "stamp?": "named_stamp",
    "isMonth": "is_month",
    "isDate": "is_date",
    "isHour": "is_hour",
    "isRate": "is_rate",
    "isPrice": "is_price",
    "isFault": "is_fault",
    "isSound": "is_sound",
    "isMonthNumber": "is_month_number",
    "Ended-by": "ended_by",
    # port.py took this alias for a name of the library
    "number_of_lem": "number_of",
}

# Names that get an underscore for each dash.
DASHED = """
comment-more comment-here comment-none next-hour ended-more digit-read digits-read digits-plain written-plain reads-back
price-of priced-row setpoint-row refusal-row count-row per-kwh hour-start tenths-text zone-row answer-text roles-row
stamp-text asked-row from-there
among-from from-among on-clock hour-below hour-from stamp-by-parts placed-hit
when-passed when-failed when-some month-parts month-named date-named stamp-named the-month the-date the-stamp
month-of-date date-of-hour its-month-parts no-date no-hour
nth-counted length-rows nth-rows full-day hours-by-day nth-hours-of nth-hour real-at nth-at placed-own days-most
returned-calendar words-calendar checked-month checked-date checked-stamp next-month first-month first-date first-hour
its-month its-date day-hours hour-count same-hour
at-price within-list may-stand as-listed tabled-as-listed lookup-nth priced-sound table-sound
none-too-high first-is all-fine item-nth outside-month missing-price list-means table-means returned-list words-list
first-too-high too-high constant-means faithful-to
purchase-tariff free-price sold-at on-terms sale-means
returned-setpoint words-setpoint setpoint-number all-setpoints first-not-allowed powers-refused rule-number storage-number
all-below ruled-at by-the-rule returned-tariff words-tariff tariff-means mode-number zone-hour
coefficient-of date-of days-of deeper-fault figures-of-the-bench grown-by held-for left-of month-of month-number
too-high-of unit-of
""".split()

NEW = {**NAMED, **{name: name.replace("-", "_") for name in DASHED}}

# A name stands alone between blanks, brackets and separators; behind a dot it is a field, or a name that the checker makes.
NAME = re.compile(r"(?<![^\s(){}\[\],;«])(" + "|".join(re.escape(n) for n in sorted(NEW, key=len, reverse=True)) + r")(?![^\s(){}\[\],;.»])")
WORD = re.compile(r"(?<![^\s(){}\[\],;«])[^\s(){}\[\],;.«»]+")

# Where ghost text begins in a line of code.
GHOST = re.compile(r"^\s*(?:pub )?(?:ghost\b|requires\b|ensures\b)")


def comment(line, mark):
    """The line up to its comment, and the comment."""
    at = re.search(r"(?:^|\s)" + re.escape(mark), line)
    return (line[: at.start()], line[at.start() :]) if at else (line, "")


def ghost_lines(lines):
    """Whether each line of code is ghost text: from a ghost word to the end of its braces, or to its semicolon."""
    depth, inside = 0, False
    for line in lines:
        code, _ = comment(line, "//")
        if not inside and GHOST.match(code):
            inside, depth = True, 0
        yield inside
        if inside:
            depth += code.count("{") - code.count("}")
            if depth <= 0 and re.search(r"[};,]\s*$", code):
                inside = False


def turned(path, text):
    lines = text.split("\n")
    spec = path.endswith(".antt")
    ghost = [True] * len(lines) if spec else list(ghost_lines(lines))
    out, before, used = [], set(), set()
    for line, turn in zip(lines, ghost):
        if not turn:
            out.append(line)
            continue
        code, rest = comment(line, "--" if spec else "//")
        before |= set(WORD.findall(code))
        used |= set(NAME.findall(code))
        out.append(NAME.sub(lambda m: NEW[m[1]], code) + rest)
    return "\n".join(out), {NEW[n] for n in used if NEW[n] in before}


def main(root):
    texts, together = {}, []
    for folder, dirs, files in os.walk(os.path.join(root, "crates")):
        dirs[:] = sorted(d for d in dirs if d not in ("out", "target", "must-fail"))
        for name in sorted(files):
            path = os.path.join(folder, name)
            if name.endswith((".rt", ".antt")):
                with open(path, encoding="utf-8") as f:
                    old = f.read()
                new, same = turned(path, old)
                together += [f"{path}: {n}" for n in sorted(same)]
                if new != old:
                    texts[path] = new
    for row in together:
        print("stands there already: " + row)
    if together:
        return 1
    for path, new in texts.items():
        with open(path, "w", encoding="utf-8") as f:
            f.write(new)
    print(f"{len(texts)} files respelled, {len(NEW)} names")
    return 0


if __name__ == "__main__":
    raise SystemExit(main(sys.argv[1] if len(sys.argv) > 1 else "."))
