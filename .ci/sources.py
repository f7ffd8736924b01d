#!/usr/bin/env python3
"""Looks at the source texts: what a public function promises, what has to be believed, and where counts are converted.

    sources.py promises | apart | factors | undivided | attacked
"""
import pathlib
import re
import sys

ROOT = pathlib.Path(__file__).resolve().parent.parent
HEAD = re.compile(r'\bpub\s+(?:unsafe\s+)?(?:extern\s+"C"\s+)?fn\s+(\w+)\s*(?:<[^>]*>)?\s*\(')
CLAUSE = re.compile(r'\s*(requires|ensures|ghost|decreases)\b\*?\s*(\w*)\s*:?\s*\{')
# A clause that says nothing: truth, or that something is itself.
EMPTY = re.compile(r'\s*(?:λ\s*\w+\.\s*)?(?:⌜\s*)?(?:⊤ₛ?|(\S+) ≡ \1)\s*(?:⌝\s*)?')
# The laws, and what only contracts of private functions cite: a crate's proofs, and its specs below Laws.
LAWS = re.compile(r'ghost use Rattle\.(?!std\b)\w+\.(?:proofs|specs\.Laws)\b[^;{]*(?:\{([^}]*)\}|\.([^;{.\s]+))\s*;')
PROOF = re.compile(r'(?<![\w-])(refl|rw(?:⁻¹)?|grw|simp|omega|search|grind|cc|hlevel|ground|assumption|absurd|subst)(?![\w-])')
# A power of two is the weight of a bit.
FACTOR = re.compile(r'[*/] *(2|256|512)(?![0-9_]| *\^)|(?<![0-9_.])(2|256|512) *[*]')
# Whether a number is odd is no division.
DIVISION = re.compile(r'/|>>|%(?! *2(?![0-9_]))')
# The scale of a color from a byte to 16 bits is no count.
SCALE = re.compile(r'scaled c = 256 \* c')


def sources():
    return sorted(ROOT.glob('crates/*/src/**/*.rt'))


def specs():
    """The definitions and statements that a reader has to believe."""
    return sorted(ROOT.glob('crates/*/specs/*.antt'))


def bare(text, comment):
    """A text without its comments, and without what stands between quotes, line by line as it was."""
    text = re.sub(rf'{comment}[^\n]*', '', text)
    text = re.sub(r'/\*.*?\*/', lambda found: '\n' * found[0].count('\n'), text, flags=re.S)
    return re.sub(r'b?"(?!C")[^"\n]*"', '""', text)


def closing(text, start, pair):
    """The place after the bracket that closes the one at `start`."""
    depth = 0
    for i in range(start, len(text)):
        depth += (text[i] == pair[0]) - (text[i] == pair[1])
        if depth == 0:
            return i + 1
    raise SystemExit('a bracket is not closed')


class Function:
    """A public function: its parameters, whether it answers something, and its clauses."""

    def __init__(self, text, found):
        self.name = found[1]
        end = closing(text, found.end() - 1, '()')
        self.parameters = text[found.end():end - 1]
        body = re.compile(r'[^{;]*?(?=\s*(?:requires|ensures|ghost|decreases)\b|\s*\{|;)', re.S).match(text, end)
        self.answers = '->' in body[0]
        self.clauses = []
        at = body.end()
        while clause := CLAUSE.match(text, at):
            at = closing(text, clause.end() - 1, '{}')
            self.clauses.append((clause[1], text[clause.end():at - 1]))

    def ensures(self):
        return [text for kind, text in self.clauses if kind == 'ensures']

    def lent(self):
        """The parameters that the function may change."""
        for part in re.split(r',(?![^\[(<]*[\])>])', self.parameters):
            name, _, kind = part.partition(':')
            if '&mut' in re.sub(r"'\w+\s*", '', kind) or re.match(r"\s*&\s*('\w+\s+)?mut\s+self", name):
                yield re.sub(r"&\s*('\w+\s+)?|\bmut\s", '', name).strip()


def public_functions():
    for path in sources():
        text = bare(path.read_text(), '//')
        for found in HEAD.finditer(text):
            yield path.relative_to(ROOT), Function(text, found)


def promises():
    """A public function asks nothing, and its promise is of its answer and of every buffer that it is lent to change."""
    count = 0
    for path, f in public_functions():
        count += 1
        if any(kind == 'requires' for kind, _ in f.clauses):
            yield f'{path}: {f.name}: a requires'
        said = [text for text in f.ensures() if text.strip() and not EMPTY.fullmatch(text)]
        if not said:
            yield f'{path}: {f.name}: no ensures'
        for name in f.lent():
            if not any(re.search(rf"(?<![\w.])«?{name}»?\.new(?![\w'])", text) for text in said):
                yield f'{path}: {f.name}: no ensures says what {name} holds afterwards'
        if f.answers and not any(answer_is_named(text) for text in said):
            yield f'{path}: {f.name}: no ensures speaks of the answer'
    if not count:
        yield 'no public function'


def answer_is_named(text):
    return re.search(r"(?<![\w.])result(?![\w'])", text) is not None


def apart():
    """Definitions and statements have no proof among them, and no promise of a public function cites a law."""
    for path in specs():
        for number, line in enumerate(bare(path.read_text(), '--').splitlines(), 1):
            if PROOF.search(line):
                yield f'{path.relative_to(ROOT)}:{number}: a proof among definitions'
    if not specs():
        yield 'no definitions'
    for path, f in public_functions():
        uses = LAWS.findall(bare((ROOT / path).read_text(), '//'))
        laws = {name.split(' as ')[-1].strip() for names, one in uses for name in (names or one).split(',')}
        for text in f.ensures():
            for name in sorted(laws & set(re.findall(r"[\w'-]+", text))):
                yield f'{path}: {f.name}: a promise cites {name} from laws'
            for name in re.findall(r'(?<![\w.])Rattle\.(?!std\b)\w+\.(?:proofs|specs\.Laws)\b[^\s(){}]*', text):
                yield f'{path}: {f.name}: a promise cites {name} from laws'


def factors():
    """Counts are converted in crate `units` alone: no other code or definition multiplies or divides by 2, 256 or 512."""
    for path in sources() + specs():
        if (ROOT / 'crates' / 'units') in path.parents:
            continue
        text = bare(path.read_text(), '//' if path.suffix == '.rt' else '--')
        for number, line in enumerate(text.splitlines(), 1):
            if FACTOR.search(line) and not SCALE.search(line):
                yield f'{path.relative_to(ROOT)}:{number}: {line.strip()}'


def undivided():
    """Runs are cut without division: there is none in the definition of it, nor in the code of the writer."""
    paths = sorted(ROOT.glob('crates/cutting/specs/*.antt')) + sorted(ROOT.glob('crates/encode_*/src/**/*.rt'))
    for name in ('cutting', 'encode_body'):
        if not any(path.parts[-3] == name for path in paths):
            yield f'no sources of {name}'
    for path in paths:
        text = bare(path.read_text(), '//' if path.suffix == '.rt' else '--')
        for number, line in enumerate(text.splitlines(), 1):
            if DIVISION.search(line):
                yield f'{path.relative_to(ROOT)}:{number}: {line.strip()}'


def attacked():
    """Every crate with a public function has an edit that must be refused."""
    for crate in sorted({path.parts[1] for path, _ in public_functions()}):
        if not list((ROOT / 'crates' / crate / 'must-fail').glob('*.edit')):
            yield f'{crate}: no must-fail edit'


def main(names):
    checks = {'promises': promises, 'apart': apart, 'factors': factors, 'undivided': undivided, 'attacked': attacked}
    bad = [fault for name in names for fault in checks[name]()]
    print('\n'.join(bad) if bad else f'{" ".join(names)}: ok')
    return 1 if bad or not names else 0


if __name__ == '__main__':
    sys.exit(main(sys.argv[1:]))
