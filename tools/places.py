#!/usr/bin/env python3
"""The places of docs/DESIGN-PASS.md: for each point of the pass, the lines of crates/*/src that its pattern finds. With -v it prints them."""

import glob
import re
import sys

POINTS = [
    ("1 own enums", r"^(pub )?enum \w+"),
    ("1 numbers in place of an answer", r"\b(DAMAGED|ABSENT|NO_SLOT|LOST|LOST_COUNT)\b|\b(words|own|needed) == 0|\bwhich == \d|\bnumber: u32"),
    ("1 weight 0 for no tree or damage", r"\bweight == 0"),
    ("1 flags beside a value", r"^\s+(pub )?\w+: bool,"),
    ("2 functions for x and for y", r"\bfn \w+_(x|y)\b"),
    ("2 functions and types for main and auxiliary nodes", r"\b(fn|struct) (Primary|Secondary)\w*|^impl (Primary|Secondary)\w*"),
    ("2 functions that one other place repeats", r"\bfn (from_low|to_high|low_end|high_end|opened|split|put|insert_at_leaf|afresh|insert_afresh"
        r"|insert_beneath|strike_over|strike_here|strike_beneath|strike_afresh|node_over|answer|damaged|refused|read_three|read_four"
        r"|load_run|load_second_run|store_run|store_second_run|used|place|put_used|put_place|insert_own|strike_own)\b"),
    ("3 loops that are no `for`", r"\bwhile\b"),
    ("4 equality, order, conversion by hand", r"\bfn (same|below\w*|of|bare|figures|lesser|greater|word|put_word)\b"),
    ("4 numbers written and read by hand", r"\bfn (read_on|read_number|read_field|put_number|put_byte|put_field|put_fields)\b"),
    ("4 casts by `as`", r"\bas (u8|u32|u64|usize)\b"),
    ("5 `slots_end`, `runs_end`, `level_end` asked for, by name or in a word for them", r"requires.*\b(slots_end|runs_end|level_end|Lent|There|Stands)\b"),
    ("5 room for a response asked for", r"requires.*\bRoom\b"),
    ("5 base and capacity side by side", r"\bbase: u32, capacity: u32|^\s+base: u32,$"),
    ("6 a length beside its buffer", r"\blen: u32\b"),
    ("7 closures' places: pointers, dyn, Fn", r"\bdyn\b|: fn\(|\bFn(Mut|Once)?\("),
]


def main():
    shown = "-v" in sys.argv
    lines = []
    for path in sorted(glob.glob("crates/*/src/**/*.rt", recursive=True)):
        with open(path, encoding="utf-8") as text:
            lines += [(path, number, line.rstrip()) for number, line in enumerate(text, 1) if not line.lstrip().startswith("//")]
    for name, pattern in POINTS:
        found = [place for place in lines if re.search(pattern, place[2]) and not place[2].lstrip().startswith(("use ", "ghost use "))]
        print(f"{len(found):4}  {name}")
        if shown:
            for path, number, line in found:
                print(f"      {path}:{number}: {line.strip()}")


main()
