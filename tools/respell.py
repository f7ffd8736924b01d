#!/usr/bin/env python3
"""Spells the project's own definitions and lemmas as today's library does: snake case, a dash only between two names.

    respell.py          once, at the top of the repository, after the kit's port.py

tools/respell.tsv has a row for each name: as it was spelled before the kit's script, as that script left it, and as it is spelled now. The
second column is turned in the crates' definitions, lemmas, clauses and comments; the first in must-fail edits, whose lines also lose the
blank before a projection; in pages, code spans. Names of src/, exported names, strings, inputs and outputs stay.
"""
import pathlib
import re

ROOT = pathlib.Path(__file__).resolve().parent.parent
ROWS = [line.split('\t') for line in (ROOT / 'tools' / 'respell.tsv').read_text().splitlines() if line]
FIRST = {row[0]: row[2] for row in ROWS if row[0] != row[2]}
SECOND = {row[1]: row[2] for row in ROWS if row[1] != row[2]}
WORD = re.compile(r"[^\s(){}\[\];,.:`\"«»⌜⌝]+")
# A word that is a path's own, as a function's folder, is no lemma's name.
LEMMAS = {was for was in SECOND if '-' not in was and not re.search('[A-Z]', was)}
GHOST = re.compile(r'ghost use [^;]*;|//[^\n]*')
CLAUSE = re.compile(r'\b(?:requires|ensures|ghost|decreases)\b\*?\s*(?:\w+\s*)?\{')


def turned(text, table):
    """The text with each whole word of the table in its new spelling."""
    def one(found):
        word = found[0]
        if word not in table:
            return word
        if word in LEMMAS and (text[found.start() - 1:found.start()] == '.' or text[found.end():found.end() + 1] == '.'):
            return word
        return table[word]
    return WORD.sub(one, text)


def closing(text, start):
    depth = 0
    for at in range(start, len(text)):
        depth += (text[at] == '{') - (text[at] == '}')
        if depth == 0:
            return at + 1
    return len(text)


def clauses(text, table):
    """A source text with its clauses, ghost imports and comments turned, and its code as it was."""
    spans = [found.span() for found in GHOST.finditer(text)]
    spans += [(found.start(), closing(text, found.end() - 1)) for found in CLAUSE.finditer(text)]
    out, at = [], 0
    for start, end in sorted(spans):
        if start < at:
            continue
        out += [text[at:start], turned(text[start:end], table)]
        at = end
    return ''.join(out) + text[at:]


def edit(text):
    """A must-fail edit in today's spelling: names, primes and tight projections."""
    lines = []
    for line in text.splitlines():
        key, colon, rest = line.partition(': ')
        if key in ('old', 'new') and colon:
            rest = re.sub(r'\((\w+) \.(\w+)\)', r'\1.\2', rest)
            rest = re.sub(r'\b(sheetOf f|fieldsOf f|wordCount body) \.(?=\w)', r'(\1).', rest)
            rest = re.sub(r'\bgetD\b', 'get_or', re.sub(r'\b_(\S)_(?!\S)', r'◌\1◌', rest))
            rest = re.sub(r"(?<=[\w)'′₀-₉]) \.(?=[a-z0-9])", '.', turned(rest, FIRST).replace('′', "'"))
        elif key == 'fact':
            rest = turned(rest, FIRST)
        lines.append(key + colon + rest)
    return '\n'.join(lines) + '\n'


def write(path, text, new):
    if new != text:
        path.write_text(new)


def main():
    for path in sorted(ROOT.glob('crates/**/*')):
        if 'out' in path.relative_to(ROOT).parts:
            continue
        if path.suffix == '.antt':
            text = path.read_text()
            write(path, text, turned(text, SECOND))
        elif path.suffix == '.rt':
            text = path.read_text()
            write(path, text, clauses(text, SECOND))
        elif path.suffix == '.edit':
            text = path.read_text()
            write(path, text, edit(text))
    for path in [ROOT / 'README.md', *sorted((ROOT / 'docs').glob('*.md'))]:
        text = path.read_text()
        write(path, text, re.sub(r'`[^`\n]+`', lambda found: turned(found[0], FIRST), text))


if __name__ == '__main__':
    main()
