#!/usr/bin/env python3
"""Holds docs/CLAIMS.md, the edits and the list of what is required to the tree: nothing that is claimed can go unseen.

.ci/required.txt lists, one to a line:

    crate NAME EDITS                       a crate, and how many edits attack it at least
    theorem CRATE NAME STATEMENT           a law `NAME : STATEMENT` of the crate's proofs/Laws
    promise CRATE FUNCTION NAME NAME ..    a public function, and definitions that its ensures clauses name, or labels of them
"""
import pathlib
import re
import sys

from sources import ROOT, bare, public_functions

CLAIMS = ROOT / 'docs' / 'CLAIMS.md'
REQUIRED = ROOT / '.ci' / 'required.txt'
# Words of the language and of the second program that the index uses.
WORDS = {'ensures', 'requires', 'fact', 'header', 'sheets', 'pairs', 'write', 'selftest', 'pub', 'fn'}


def listed_crates():
    lines = (re.sub('#.*', '', line) for line in (ROOT / 'crates.txt').read_text().splitlines())
    return {line.split(':')[0].split()[0] for line in lines if ':' in line}


def edits():
    return {f'{path.parent.parent.name}/{path.stem}' for path in ROOT.glob('crates/*/must-fail/*.edit')}


def laws(crate):
    """The laws of a crate, by name, with the text of what each states as far as the first line has it."""
    found = {}
    for path in (ROOT / 'crates' / crate / 'proofs' / 'Laws').glob('**/*.antt'):
        found.update(re.findall(r'^\s*pub ([^\s:()]+) : (.*)$', bare(path.read_text(), '--'), re.M))
    return found


def definitions():
    """What is defined at the top of a file of definitions."""
    return {name for path in ROOT.glob('crates/*/specs/*.antt')
            for name in re.findall(r'^(?:abbrev |unfoldable |opaque )?pub (?:record |data )?([^\s:(){}]+)', bare(path.read_text(), '--'), re.M)}


def promised():
    """For each public function, by crate and name, the text of its ensures clauses, and their labels. A label that is spelled as
    a definition is no word for it."""
    defined = definitions()
    found = {}
    for path, f in public_functions():
        text = (ROOT / path).read_text()
        at = re.search(rf'\bfn {f.name}\b', text).start()
        labels = re.findall(r'\bensures (\w+) \{', text[at:].split('\n{', 1)[0])
        found[path.parts[1], f.name] = ' '.join(f.ensures() + [label for label in labels if label not in defined])
    return found


def required():
    """What the list asks for and the tree lacks."""
    crates, known = {}, {'theorem': set(), 'promise': set()}
    said = promised()
    for line in REQUIRED.read_text().splitlines():
        kind, *words = line.split() or ['#']
        if kind.startswith('#'):
            continue
        if kind == 'crate':
            crates[words[0]] = int(words[1])
        elif kind == 'theorem':
            known[kind].add(words[1])
            if laws(words[0]).get(words[1]) != words[2]:
                yield f'{words[0]}: no law `{words[1]} : {words[2]}`'
        elif kind == 'promise':
            known[kind].add(words[1])
            text = said.get((words[0], words[1]))
            if text is None:
                yield f'{words[0]}: no public function {words[1]}'
                continue
            for name in words[2:]:
                if not re.search(rf'(?<![\w-]){re.escape(name)}(?![\w-])', text):
                    yield f'{words[0]}: the promise of {words[1]} does not name {name}'
        else:
            yield f'{REQUIRED.name}: {line}'
    for name in sorted(set(crates) ^ listed_crates()):
        yield f'crate {name}: in crates.txt or in {REQUIRED.name}, not in both'
    for name, least in crates.items():
        count = sum(edit.startswith(f'{name}/') for edit in edits())
        if count < least:
            yield f'{name}: {count} edits, and {least} are required'
    cited = set(re.findall(r'`([^`]+)`', CLAIMS.read_text()))
    for kind, names in known.items():
        if not names:
            yield f'no {kind} is required'
        for name in sorted(names - cited):
            yield f'{CLAIMS.name} does not cite the {kind} {name}'
    for path in sorted(ROOT.glob('crates/*/proofs/Laws/**/*.antt')):
        # A statement with a name of its own is a theorem: its law is on the list.
        for name, statement in re.findall(r'^pub ([^\s:()]+) : ([A-Z]\w*)$', path.read_text(), re.M):
            if name not in known['theorem']:
                yield f'{path.relative_to(ROOT)}: the theorem {name} : {statement} is not in {REQUIRED.name}'


def names():
    """Every name that is declared somewhere: definitions, fields, laws, functions, labels, crates."""
    found = set(WORDS) | listed_crates()
    for path in [*ROOT.glob('crates/*/specs/**/*.antt'), *ROOT.glob('crates/*/proofs/Laws/**/*.antt')]:
        text = bare(path.read_text(), '--')
        found |= set(re.findall(r'^\s*(?:abbrev |unfoldable )?(?:pub )?([^\s:(){}]+) (?::|\()', text, re.M))
        found |= set(re.findall(r'\brecord (\w+)', text))
    for path in ROOT.glob('crates/*/src/**/*.rt'):
        text = bare(path.read_text(), '//')
        found |= set(re.findall(r'\b(?:fn|struct|enum|const) (\w+)', text)) | set(re.findall(r'\bensures (\w+) \{', text))
    return found


def fields():
    """The fields of each record, by its name."""
    found = {}
    for path in ROOT.glob('crates/*/specs/**/*.antt'):
        text = bare(path.read_text(), '--')
        for name, block in re.findall(r'^ *(?:pub )?record (\w+)[^\n]* where\n((?: +[^\n]*\n|\n(?= ))*)', text, re.M):
            found.setdefault(name, set()).update(re.findall(r'^ *(?:pub )?([^\s:(){}]+) :', block, re.M))
    return found


def cited():
    """What the index names and the tree lacks, and edits that the index does not name."""
    crates, known, records = listed_crates(), names(), fields()
    tokens = set(re.findall(r'`([^`]+)`', CLAIMS.read_text()))
    for token in sorted(tokens):
        place = re.fullmatch(r'(\w+)/(Laws/)?(\w+)', token)
        if place and place[1] in crates:
            folder = ROOT / 'crates' / place[1] / ('proofs/Laws' if place[2] else 'specs')
            if not place[3][0].isupper():
                if token not in edits():
                    yield f'no edit {token}'
            elif not (folder / f'{place[3]}.antt').is_file():
                yield f'no file of definitions or laws {token}'
        elif '/' in token:
            if not re.search(r'NAME|FILE', token) and not (ROOT / token).exists():
                yield f'no path {token}'
        elif clause := re.fullmatch(r'([A-Z]\w*)\.([\w-]+)', token):
            if clause[2] not in records.get(clause[1], ()):
                yield f'{clause[1]} has no clause {clause[2]}'
        else:
            for word in re.findall(r"[^\W\d][\w'-]*(?<!-)", token):
                if len(word) > 1 and word not in known:
                    yield f'nothing is called {word}, of `{token}`'
    for edit in sorted(edits() - tokens):
        yield f'the edit {edit} is not in {CLAIMS.name}'
    if not edits():
        yield 'no edit'


def main():
    bad = list(required()) + list(cited())
    print('\n'.join(bad) if bad else 'claims: ok')
    return 1 if bad else 0


if __name__ == '__main__':
    sys.exit(main())
