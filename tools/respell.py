#!/usr/bin/env python3
"""Brings the repository's own names to the spelling of today's Rattle: tools/respell.py, once, at the top, straight after the kit's port.py.

port.py respells the names that it knows. What is left are the words of specs/ and proofs/ in camel case: `insertSorted-sorted` becomes `insert_sorted-sorted`,
`fromX1` `from_x1`. Types, modules and facts keep their capitals, and so do names that Rattle makes from one (`is_Valid`). The names of src/, exported C names,
strings, inputs and outputs have no such words. A few names would fall together with another of the same file: APART gives these a name of their own first.
It turns crates/**/*.antt, crates/**/*.rt, and in README.md and docs/ the names that stand in crates/. Must-fail edits are brought over by hand.
"""
import pathlib
import re

# (file, name as port.py leaves it, its own name): lemmas beside a definition that is spelled alike now
APART = [
    ('crates/checking/proofs/Comparing.antt', 'same_arm', 'same_arm-equal'),
    ('crates/checking/proofs/Reading.antt', 'same_arm', 'same_arm-equal'),
    ('crates/checking/proofs/Complete.antt', 'root_stands', 'root_stands-complete'),
    ('crates/register/proofs/Performing.antt', 'not_table', 'performs-no_table'),
]
PART = re.compile(r"(?<![\w◌♯'])[a-z]\w*[A-Z]\w*")
MADE = re.compile(r'(at|is|in)_[A-Z]')  # what Rattle makes of a variant's name


def snake(word):
    word = re.sub(r'(?<=[a-z0-9])(?=[A-Z])', '_', word)
    return re.sub(r'(?<=[A-Z])(?=[A-Z][a-z])', '_', word).lower()


def turned(text, known=None):
    def one(m):
        word = m.group(0)
        return word if MADE.match(word) or known is not None and word not in known else snake(word)

    return PART.sub(one, text)


def main():
    files = sorted(p for p in pathlib.Path('crates').rglob('*') if p.suffix in ('.antt', '.rt') and 'out' not in p.parts)
    for name, old, new in APART:
        path = pathlib.Path(name)
        path.write_text(re.sub(r"(?<![\w-])%s(?![\w-])" % old, new, path.read_text(encoding='utf8')), encoding='utf8')
    known = set()
    for path in files:
        known.update(PART.findall(path.read_text(encoding='utf8')))
    for path in files:
        text = path.read_text(encoding='utf8')
        path.write_text(turned(text), encoding='utf8')
    for path in [pathlib.Path('README.md'), *sorted(pathlib.Path('docs').glob('*.md'))]:
        path.write_text(turned(path.read_text(encoding='utf8'), known), encoding='utf8')


if __name__ == '__main__':
    main()
