#!/usr/bin/env python3
"""Puts the tables of a speed run, given on standard input, into docs/SPEED.md in place of the old ones.

    (cd rust && cargo bench --offline --bench speed) | python3 tools/speed_tables.py
"""

import pathlib
import sys

PAGE = pathlib.Path(__file__).resolve().parent.parent / "docs" / "SPEED.md"
START, END = "<!-- measured -->", "<!-- end of what was measured -->"
FIRST = "the largest file: "


def main():
    measured = sys.stdin.read()
    if FIRST not in measured or "rows are over their bar" not in measured:
        sys.exit("standard input is not a whole speed run")
    measured = measured[measured.index(FIRST) :].strip()
    page = PAGE.read_text(encoding="utf-8")
    before, rest = page.split(START)
    _, after = rest.split(END)
    PAGE.write_text(f"{before}{START}\n\n{measured}\n\n{END}{after}", encoding="utf-8")


main()
