#!/usr/bin/env python3
"""Shows that each check of the sources and of the edits can fail: every case spoils a copy of the tree and wants a complaint."""
import contextlib
import pathlib
import shutil
import subprocess
import sys
import tempfile

ROOT = pathlib.Path(__file__).resolve().parent.parent
sys.path.insert(0, str(ROOT / '.ci'))
import edits  # noqa: E402


def put(path, old, new):
    text = path.read_text()
    if text.count(old) < 1:
        raise SystemExit(f'{path}: nothing to spoil: {old!r}')
    path.write_text(text.replace(old, new, 1))


def remove_line(path, start):
    lines = path.read_text().splitlines(keepends=True)
    kept = [line for line in lines if not line.startswith(start)]
    if len(kept) == len(lines):
        raise SystemExit(f'{path}: no line {start!r}')
    path.write_text(''.join(kept))


def add_function(tree, text):
    path = tree / 'crates/slices/src/lib.rt'
    path.write_text(path.read_text() + text)


def drop_crate(tree):
    shutil.rmtree(tree / 'crates/text')
    remove_line(tree / 'crates.txt', 'text:')


def drop_edit(tree):
    """An edit, and every mention of it."""
    (tree / 'crates/isolation/must-fail/nothing_may_change.edit').unlink()
    put(tree / 'docs/CLAIMS.md', '`isolation/nothing_may_change`', '')


PLAIN = 'pub fn spoiled(row: &mut [u16], v: u16) -> u16\n'
KEEPS = '    ensures value { result ≡ v }\n'
LEAVES = '    ensures row_after { row.new ≡ row.old }\n'
BODY = '{\n    v\n}\n'

# A name, the check that must complain, what it must say, and how the tree is spoiled.
CASES = [
    ('no ensures', 'promises', 'no ensures', lambda t: add_function(t, PLAIN + BODY)),
    ('an ensures in a comment', 'promises', 'no ensures', lambda t: add_function(t, PLAIN + '    // ensures { result ≡ v }\n' + BODY)),
    ('an ensures in a comment of more lines', 'promises', 'no ensures', lambda t: add_function(t, PLAIN + '    /* of the answer:\n    ensures { result ≡ v } */\n' + BODY)),
    ('an ensures that says nothing', 'promises', 'no ensures', lambda t: add_function(t, PLAIN + '    ensures { ⊤ }\n' + BODY)),
    ('an ensures of memory that says nothing', 'promises', 'no ensures', lambda t: add_function(t, PLAIN + '    ensures* { ⊤ₛ }\n' + BODY)),
    ('an ensures that anything meets', 'promises', 'no ensures', lambda t: add_function(t, PLAIN + '    ensures value { result ≡ result }\n' + BODY)),
    ('a buffer without a word', 'promises', 'what row holds', lambda t: add_function(t, PLAIN + KEEPS + BODY)),
    ('a method that does not say what it leaves', 'promises', 'what self holds', lambda t: add_function(t, PLAIN.replace('row: &mut [u16]', '&mut self') + KEEPS + BODY)),
    ('a buffer of which only the old is said', 'promises', 'what row holds', lambda t: add_function(t, PLAIN + KEEPS.replace('≡ v', '≡ length row.old') + BODY)),
    ('an answer without a word', 'promises', 'speaks of the answer', lambda t: add_function(t, PLAIN + LEAVES + BODY)),
    ('a requires', 'promises', 'a requires', lambda t: add_function(t, PLAIN + '    requires { v ≡ v }\n' + KEEPS + LEAVES + BODY)),
    ('an answer that only a name is like', 'promises', 'speaks of the answer', lambda t: add_function(t, PLAIN + LEAVES.replace('≡ row.old', '≡ result_of row.old') + BODY)),
    ('an exported function', 'promises', 'what row holds', lambda t: add_function(t, PLAIN.replace('pub fn', '#[unsafe(no_mangle)]\npub extern "C" fn') + KEEPS + BODY)),
    ('an exported function that is unsafe', 'promises', 'what row holds', lambda t: add_function(t, PLAIN.replace('pub fn', 'pub unsafe extern "C" fn') + KEEPS + BODY)),
    ('a proof among definitions', 'apart', 'a proof among definitions', lambda t: put(t / 'crates/layout/specs/Chain.antt', 'end_of r = start r r.nol', 'end_of r = rw start r r.nol')),
    ('a promise that cites a law', 'apart', 'cites fill_law', lambda t: add_function(t, 'ghost use Rattle.slices.proofs.Laws.Painting.{fill_law};\n' + PLAIN + KEEPS.replace('≡ v', '≡ fill_law v') + LEAVES + BODY)),
    ('a promise that cites a law by another name', 'apart', 'cites painted', lambda t: add_function(t, 'ghost use Rattle.slices.proofs.Laws.Painting.{fill_law as painted};\n' + PLAIN + KEEPS.replace('≡ v', '≡ painted v') + LEAVES + BODY)),
    ('a promise that cites a working definition', 'apart', 'cites row_pixel', lambda t: add_function(t, 'ghost use Rattle.moves.specs.Laws.Picture.{row_pixel};\n' + PLAIN + KEEPS.replace('≡ v', '≡ row_pixel v') + LEAVES + BODY)),
    ('a stray factor', 'factors', '512 * k', lambda t: add_function(t, 'fn stray(k: usize) -> usize {\n    512 * k\n}\n')),
    ('a run divided', 'undivided', 'n / 32767', lambda t: put(t / 'crates/encode_body/src/run_body.rt', 'let mut left = n;', 'let mut left = n / 32767;')),
    ('a run divided in the definition', 'undivided', 'n % 32767', lambda t: put(t / 'crates/cutting/specs/Pieces.antt', 'cond (leb n 32767) (n ∷ [])', 'cond (leb n 32767) (n % 32767 ∷ [])')),
    ('no definition of the cutting', 'undivided', 'no sources of cutting', lambda t: shutil.rmtree(t / 'crates/cutting/specs')),
    ('a crate without edits', 'attacked', 'fields: no must-fail', lambda t: shutil.rmtree(t / 'crates/fields/must-fail')),
    ('an exported function without edits', 'attacked', 'layout: no must-fail', lambda t: (
        shutil.rmtree(t / 'crates/layout/must-fail'),
        (t / 'crates/layout/src/lib.rt').open('a').write('#[unsafe(no_mangle)]\npub extern "C" fn spoiled(v: u16) -> u16 {\n    v\n}\n'))),
    ('a law deleted', 'claims', 'no law `isolated : Demand3`', lambda t: put(t / 'crates/isolation/proofs/Laws/Law.antt', 'pub isolated : Demand3', 'isolates : Demand3')),
    ('a law of another statement', 'claims', 'no law `covered : AllCovered`', lambda t: put(t / 'crates/isolation/proofs/Laws/Covered.antt', 'pub covered : AllCovered', 'pub covered : ChangedAgain')),
    ('a theorem that nobody lists', 'claims', 'the theorem other : Demand3', lambda t: (t / 'crates/isolation/proofs/Laws/Law.antt').open('a').write('\npub other : Demand3\nother = isolated\n')),
    ('a promise weakened', 'claims', 'does not name marks_after', lambda t: put(t / 'crates/decode_raster/src/lib.rt', '≡ marks_after file.now', '≡ pixels_after file.now')),
    ('a label dropped', 'claims', 'does not name demand_3', lambda t: put(t / 'crates/two_readings/src/lib.rt', 'ensures demand_3 {', 'ensures {')),
    ('a clause of demand 3 dropped', 'claims', 'OneReading has no clause good', lambda t: remove_line(t / 'crates/isolation/specs/Statement.antt', '  pub good :')),
    ('a clause of the bytes written dropped', 'claims', 'FieldsInPlace has no clause matrix', lambda t: remove_line(t / 'crates/encode_header/specs/Positions.antt', '  pub matrix :')),
    ('a crate deleted with its line', 'claims', 'crate text: in crates.txt or', drop_crate),
    ('an edit deleted', 'claims', 'no edit isolation/nothing_may_change', lambda t: (t / 'crates/isolation/must-fail/nothing_may_change.edit').unlink()),
    ('an edit deleted with its mention', 'claims', 'edits, and', drop_edit),
    ('an edit that the index lacks', 'claims', 'the edit isolation/nothing_may_change is not', lambda t: put(t / 'docs/CLAIMS.md', '`isolation/nothing_may_change`', '')),
    ('a file of laws that is nowhere', 'claims', 'no file of definitions or laws', lambda t: put(t / 'docs/CLAIMS.md', '`isolation/Laws/Law`', '`isolation/Laws/Lore`')),
    ('a name that is nowhere', 'claims', 'nothing is called ChangedInHeads', lambda t: put(t / 'docs/CLAIMS.md', '`ChangedInBodies`', '`ChangedInHeads`')),
]

SAYS = 'refused, as it must be: '
PROOF = 'proofs/little_endian/u16_at/Answers.antt'
REFUSED = f'{SAYS}./{PROOF}:10:13: error: `returns`: `omega`: the goal does not follow'
LAW = f'{SAYS}./proofs/Laws/Words.antt:13:25: error: `length-words`: computed as far as they go, the two types are `Path ℕ 0 1` (expected) and'
UNFIT = f'{SAYS}./{PROOF}:10:13: error: `returns`: record `Rattle.units.proofs.little_endian.u16_at.Lts.After` has no field `if-at-s`'
NEAREST = f'{SAYS}./{PROOF}:15:32: error: `returns`: record `Rattle.units.proofs.little_endian.u16_at.Lts.View.In-After` (nearest: .u32_at)'
SHIFTED = f'{SAYS}./{PROOF}:10:13: error: `returns`: expected type `goal.returns-then-at-s`, but this has type `goal.returns`'
BINDERS = f'{SAYS}./{PROOF}:69:10: error: `returns`: this λ has 2 binders, but its type has room for only 1'
APPLIED = f'{SAYS}./{PROOF}:10:57: error: `returns`: this is applied to an argument but has type `a < b`'
DEFINED = f'{SAYS}./specs/Counts.antt:10:13: error: `returns`: for a numeral, use it as an argument'
CLAUSED = f'{SAYS}./src/lib.rt:31:20: error: `returns`: for a numeral, use it as an argument'
NAMES = 'refused, as it must be (only because a proof file names what the edit took away, so this says little of the contract: change a value and keep the names): x'
LIMITED = 'refused, as it must be (only by a limit of the prover, which gave no verdict, so this says less of the contract: choose a change that it refuses sooner): x'


def unanswered(path, text, said):
    """A goal of the function in whose code a text stands, that nothing answers: as it is said, with the line."""
    lines = (ROOT / 'crates' / 'units' / path).read_text().splitlines()
    line = next(number for number, line in enumerate(lines, 1) if text in line)
    return f'{SAYS}note: {path}:{line}:11: it is not proved that {said}'[:edits.CUT + len(SAYS)]


PRODUCT = unanswered('src/lib.rt', 'Bytes(2 * n.0)', "the product fits its type (at an index, the index times an element's size) (`overflow_mul-result`); the facts known there allow")
RETURNS = unanswered('src/word_slice.rt', 'pub fn put_word', 'what the function ensures holds when it returns (`returns-then-at-out`)')
CUT_OFF = unanswered('src/word_slice.rt', 'pub fn put_word', f"what the function ensures holds when it returns (`returns-then-{'at-out-' * 20}`); the facts")

# What is said of an edit, the fact that it names, and what is complained of; nothing where it is as it should be.
LOGS = [
    ('a fact', REFUSED, 'little_endian/u16_at returns', ''),
    ('a law', LAW, 'proofs/Laws/Words.antt length-words', ''),
    ('a goal that nothing answers', PRODUCT, 'words_to_bytes overflow_mul-result', ''),
    ('a goal of a function in a module', RETURNS, 'word_slice/put_word returns-then-at-out', ''),
    ('a goal whose name is cut off', CUT_OFF, 'word_slice/put_word ' + CUT_OFF.split('`')[1] + '..', ''),
    ('another fact', REFUSED, 'little_endian/u16_at loop-i-preserved', 'refused at'),
    ('the fact of another function', REFUSED, 'little_endian/u32_at returns', 'refused at'),
    ('a goal of another function', PRODUCT, 'words_to_blocks overflow_mul-result', 'refused at'),
    ('another law', LAW, 'proofs/Laws/Words.antt words-length', 'refused at'),
    ('no refusal', 'NOT REFUSED: the crate is still proved with this edit', 'u16_at returns', 'not refused'),
    ('no verdict', 'NOT TRIED: its check was killed', 'u16_at returns', 'not refused'),
    ('an edit that cannot be applied', "BAD EDIT: an 'old:' text is in src/lib.rt 0 times, and not once", 'u16_at returns', 'not refused'),
    ('a refusal that says nothing', SAYS.rstrip(': '), 'u16_at returns', 'no fact'),
    ('a refusal by a name that is gone', NAMES, 'u16_at returns', 'only because'),
    ('a refusal by a limit', LIMITED, 'u16_at returns', 'only by a limit'),
    ('a proof that names other goals', UNFIT, 'little_endian/u16_at returns', 'does not fit'),
    ('a proof that takes the facts of another call', NEAREST, 'little_endian/u16_at returns', 'does not fit'),
    ('a proof that is shifted', SHIFTED, 'little_endian/u16_at returns', 'does not fit'),
    ('a proof with other parts', BINDERS, 'little_endian/u16_at returns', 'does not fit'),
    ('a proof that takes a fact of another kind', APPLIED, 'little_endian/u16_at returns', 'does not fit'),
    ('a definition that is refused', DEFINED, 'specs/Counts.antt returns', 'itself is refused'),
    ('a clause that is refused', CLAUSED, 'src/lib.rt returns', 'itself is refused'),
]

ANSWERS = '# wrong\n# fact: f returns\nfile: proofs/f/Answers.antt\n'
DECLARES = ANSWERS + 'old: pub returns-then-k-eq1 : goal.returns-then-k-eq1\nnew: pub returns-then-k-eq2 : goal.returns-then-k-eq2\n'

TEXTS = [
    ('an edit as it should be', '# wrong\n# fact: f returns\nfile: src/lib.rt\nold: a\nnew: b\n', ''),
    ('an edit of two lines', '# wrong\n# fact: f returns\nfile: src/lib.rt\nold: a\n  b\nnew: c\n', 'nothing reads'),
    ('an edit without a fact', '# wrong\nfile: src/lib.rt\nold: a\nnew: b\n', 'fact'),
    ('an edit that says nothing but its fact', '# fact: f returns\nfile: src/lib.rt\nold: a\nnew: b\n', 'no comment'),
    ('a goal that is renamed', DECLARES + 'old: returns-then-k-eq1 c = g c.if-k-eq1.true\nnew: returns-then-k-eq2 c = g c.if-k-eq2.true\n', ''),
    ('a goal that is taken for another', ANSWERS + 'old: returns-then-k-eq1 c = g\nnew: returns-then-k-eq2 c = g\n', 'changes a proof'),
    ('a name of Goals that is renamed', ANSWERS + 'old: use Rattle.a.proofs.f.Goals.{then-k-eq1, else-k-eq1}\nnew: use Rattle.a.proofs.f.Goals.{then-k-eq2, else-k-eq2}\n'
     'old: [ then-k-eq1 w ↦ w.if-k-eq1.true\nnew: [ then-k-eq2 w ↦ w.if-k-eq2.true\n', ''),
    ('a part of a line of names of Goals', ANSWERS + 'old: Goals.{then-k-eq1, else-k-eq1,\nnew: Goals.{then-k-eq2, else-k-eq2,\n', ''),
    ('a lemma that is brought for another', ANSWERS + 'old: use Rattle.a.proofs.Laws.Words.{length-words}\nnew: use Rattle.a.proofs.Laws.Words.{length-bytes}\n', 'changes a proof'),
    ('a lemma that is taken for another', DECLARES + 'old: returns c = omega (arith, length-words r)\nnew: returns c = omega (arith, length-bytes r)\n', 'changes a proof'),
    ('an argument that is taken for another', ANSWERS + 'old: returns c = g c.args.k\nnew: returns c = g c.args.n\n', 'changes a proof'),
    ('an argument that is taken for what is required', ANSWERS + 'old: returns c = g c.args.k\nnew: returns c = g c.requires.k\n', 'changes a proof'),
    ('a step that is renamed', ANSWERS + 'old: returns c = rw c.in-2.is c.low.ensures\nnew: returns c = rw c.in-2.is c.high.ensures\n', ''),
    ('a fact that is taken for another', ANSWERS + 'old: returns c = rw c.low.ensures\nnew: returns c = rw c.low.requires\n', 'changes a proof'),
    ('a goal that is renamed twice', ANSWERS + 'old: returns c = g c.if-k-eq1.true c.if-k-eq1.true\nnew: returns c = g c.if-k-eq2.true c.if-k-eq3.true\n', 'changes a proof'),
    ('a proof that is changed', ANSWERS + 'old: returns c = refl\nnew: returns c = search\n', 'changes a proof'),
    ('a proof that is shortened', ANSWERS + 'old: returns c = sym refl\nnew: returns c = refl\n', 'changes a proof'),
    ('a law that is changed', '# wrong\n# fact: f returns\nfile: proofs/Laws/Law.antt\nold: f-1 = g\nnew: f-2 = g\n', 'a law is what'),
]

# A function, and another: whether the shape is the same.
STEPS = 'fn f(p: usize, s: &[u8]) -> Bytes { let n = g(p, s[0]); if p < 5 { return Bytes(h(n)); } match p { 2 | 3 => f(n, s), 9 => Err(E::Low), _ => Bytes(n as usize) } }'
SHAPES = [
    ('another operand', STEPS.replace('h(n)', 'h(p)'), True),
    ('a part of what is read', STEPS.replace('h(n)', 'h(n.0)'), True),
    ('another constant', STEPS.replace('p < 5', 'p < 6'), True),
    ('another arm', STEPS.replace('2 | 3', '4'), True),
    ('another comparison', STEPS.replace('p < 5', '5 <= p'), True),
    ('another kind of comparison', STEPS.replace('p < 5', 'p != 5'), True),
    ('another answer of constants', STEPS.replace('Err(E::Low)', 'Ok(())'), True),
    ('an answer of what is read', STEPS.replace('Err(E::Low)', 'Err(n)'), True),
    ("an answer of a type's constants", STEPS.replace('Err(E::Low)', 'Ok(T { at: 0, good: true })'), True),
    ('an answer of what is made', STEPS.replace('Err(E::Low)', 'Err(g(n))'), False),
    ('a comment', STEPS.replace('if p', '/* n < 5 { */ if p') + '// end', True),
    ('operands exchanged with what is made', STEPS.replace('g(p, s[0])', 'g(s[0], p)'), True),
    ('another clause', STEPS.replace(' {', ' ensures { result.0 ≡ f p } {', 1), True),
    ('another call', STEPS.replace('h(n)', 'g(n)'), False),
    ('another loop', STEPS.replace('if p < 5', 'while p < 5'), False),
    ('another width', STEPS.replace('n as usize', 'n as u8'), False),
    ('another operator', STEPS.replace('s[0]', '0 + p'), False),
    ('a step more', STEPS.replace('p < 5', 'p < 5 + 1'), False),
    ('a step less', STEPS.replace('h(n)', 'n'), False),
    ('a statement more', STEPS.replace('if p', 'n += 1; if p'), False),
    ('steps in another order', STEPS.replace('g(p, s[0])', 'g(h(p), k(s))').replace('h(n)', 'n'), False),
]

def changed(path, old, new):
    return f'# wrong\n# fact: f returns\nfile: {path}\nold: {old}\nnew: {new}\n'


# A crate whose functions have answers: its files.
MADE = {
    'src/lib.rt': '''
pub fn kind(dtc: u32) -> bool { if dtc == 1 { return true; } if dtc == 2 { return true; } false }
pub fn read(file: &[u8]) -> u16 { let number = first(file); if number != 0 { return number; } 0 }
pub fn lost(rest: &[u8]) -> u8 { if rest[1] != 0x59 { return 2; } 0 }
pub fn table(h: Fields) -> u16 { if h.ctv == 0 { return 0; } if h.cte == 0 { return 21; } 0 }
pub fn status(dtc: u16, body: &[u8]) -> u8 { match dtc { 2 => bytes(body), 3 => words(body), _ => 16 } }
pub fn color(answer: &mut [u8]) -> u32 { if answer.len() < COLOR_SIZE { return 29; } 0 }
''',
    **{f'proofs/{name}/Answers.antt': ''.join(f'pub {goal} : goal.{goal}\n{goal} c = lemma c.args\n' for goal in goals.split())
       for name, goals in [('kind', 'returns-then-dtc-eq1 returns-then-dtc-eq2 returns'), ('read', 'returns-then-number-ne0 returns'), ('lost', 'returns-then-rest-ne89'),
                           ('table', 'returns-then-h-eq0 returns-then-h-eq0-2 returns'), ('status', 'returns-in-2 returns-in-3'), ('color', 'returns-then-answer-lt-COLOR_SIZE')]},
}

# An edit of a condition or an arm, by which goals of a function have their names: what it is, the function, a goal that it
# has under the edit, the edit, and the answer that then lacks its goal, or none.
CONDITION = changed('src/lib.rt', 'if dtc == 1 {', 'if dtc == 0 {')
RENAMED = CONDITION + 'file: proofs/kind/Answers.antt\nold: pub returns-then-dtc-eq1 : goal.returns-then-dtc-eq1\nnew: pub returns-then-dtc-eq0 : goal.returns-then-dtc-eq0\n'
RENAMES = [
    ('a condition', 'kind', 'returns-then-dtc-eq0', CONDITION, 'returns-then-dtc-eq1'),
    ('a condition that is renamed in the answers', 'kind', 'returns-then-dtc-eq0', RENAMED, None),
    ('a condition, and another goal that refuses', 'kind', 'returns', CONDITION, 'returns-then-dtc-eq1'),
    ('a goal of more clauses', 'read', 'returns-then-number-ne1-clause-result_value', changed('src/lib.rt', 'if number != 0 {', 'if number != 1 {'), 'returns-then-number-ne0'),
    ('a number in hexadecimal', 'lost', 'returns', changed('src/lib.rt', 'if rest[1] != 0x59 {', 'if rest[1] != 0xd9 {'), 'returns-then-rest-ne89'),
    ('the same number in decimal', 'lost', 'returns', changed('src/lib.rt', 'if rest[1] != 0x59 {', 'if rest[1] != 89 {'), None),
    ('the second condition of a name', 'table', 'returns', changed('src/lib.rt', 'if h.cte == 0 {', 'if h.cte == 1 {'), 'returns-then-h-eq0-2'),
    ('a condition of the same name', 'table', 'returns', changed('src/lib.rt', 'if h.cte == 0 {', 'if h.ctv == 0 {'), None),
    ('an arm', 'status', 'returns-in_default', changed('src/lib.rt', '3 => words(body)', '4 => words(body)'), 'returns-in-3'),
    ('a constant', 'color', 'returns', changed('src/lib.rt', 'if answer.len() < COLOR_SIZE {', 'if answer.len() < 16 {'), 'returns-then-answer-lt-COLOR_SIZE'),
]

# The last line but one of `rt ci`, and whether all edits are good.
ENDS = [
    ('all refused', 'rt: ok; handles allowed: none; must-fail edits: 356 refused; done in this run: 3 of the 50 proofs', True),
    ('a bad edit', 'rt: ok; handles allowed: none; must-fail edits: 355 refused, 1 bad; every proof', False),
    ('bad edits and a limit', 'rt: ok; handles allowed: none; must-fail edits: 344 refused, 1 of them only by a limit, 12 bad; every proof', False),
    ('no edit', 'rt: ok; handles allowed: none; every proof', False),
    ('none refused', 'rt: ok; handles allowed: none; must-fail edits: 0 refused, 3 bad; every proof', False),
    ('a failure', 'rt: FAILED: units', False),
]


def unread(folder, names):
    """What no check of the sources reads: of the proofs they look at laws alone."""
    others = {'target', '.git', 'tests', 'samples', 'out'}
    return [name for name in names if name in others or pathlib.Path(folder).name == 'proofs' and name != 'Laws']


def spoiled(check, wanted, spoil):
    with tempfile.TemporaryDirectory() as room:
        tree = pathlib.Path(room) / 'tree'
        shutil.copytree(ROOT, tree, ignore=unread)
        spoil(tree)
        words = ['claims.py'] if check == 'claims' else ['sources.py', check]
        run = subprocess.run([sys.executable, tree / '.ci' / words[0], *words[1:]], capture_output=True, text=True)
        return run.returncode == 1 and wanted in run.stdout, run.stdout + run.stderr


@contextlib.contextmanager
def made():
    """A tree that has the made crate alone, where edits.py looks."""
    root = edits.ROOT
    with tempfile.TemporaryDirectory() as room:
        for name, text in MADE.items():
            path = pathlib.Path(room) / 'crates' / 'made' / name
            path.parent.mkdir(parents=True, exist_ok=True)
            path.write_text(text)
        edits.ROOT = pathlib.Path(room)
        yield
        edits.ROOT = root


def faults_of_edit(crate, text, log):
    """What is wrong with an edit of a crate of which this was said."""
    with tempfile.TemporaryDirectory() as room:
        path = pathlib.Path(room) / crate / 'must-fail' / 'spoiled.edit'
        path.parent.mkdir(parents=True)
        path.write_text(text)
        return ' '.join(edits.check(path, {(crate, 'spoiled'): [log]}))


def no_bad_edit(line):
    """The status of the gate's own look at what `rt ci` said at its end."""
    run = (ROOT / '.ci' / 'run').read_text()
    start = run.index('no_bad_edit() {')
    with tempfile.NamedTemporaryFile('w', suffix='.log') as log:
        log.write(f'{line}\n1 passed, 0 failed\n')
        log.flush()
        words = ['bash', '-c', run[start:run.index('\n}', start) + 2] + '\nno_bad_edit "$0" >/dev/null', log.name]
        return subprocess.run(words, stdin=subprocess.DEVNULL).returncode


def main():
    passed, failed = 0, []
    for name, check, wanted, spoil in CASES:
        right, said = spoiled(check, wanted, spoil)
        passed += right
        if not right:
            failed.append(f'{check} does not see {name}: {said[:300]}')
    for name, log, fact, wanted in LOGS:
        said = ' '.join(edits.faults_of_said(log, 'units', fact))
        right = wanted in said if wanted else not said
        passed += right
        if not right:
            failed.append(f'{name}: {said}')
    for name, text, wanted in TEXTS:
        said = ' '.join([*edits.faults_of_text(text), *edits.faults_of_proofs(text)])
        right = wanted in said if wanted else not said
        passed += right
        if not right:
            failed.append(f'{name}: {said}')
    for name, steps, same in SHAPES:
        right = (edits.shapes(steps) == edits.shapes(STEPS)) == same
        passed += right
        if not right:
            failed.append(f'{name}: the shape is {"not " if same else ""}the same')
    with made():
        for name, place, goal, text, wanted in RENAMES:
            said = edits.renamed('made', place, goal, text)
            passed += said == wanted
            if said != wanted:
                failed.append(f'the answer that {name} leaves without its goal: {said}, and not {wanted}')
        said = faults_of_edit('made', CONDITION, REFUSED)
        passed += 'another name' in said
        if 'another name' not in said:
            failed.append(f'an answer without its goal, of an edit that another fact refuses: {said}')
    for name, line, good in ENDS:
        right = (no_bad_edit(line) == 0) == good
        passed += right
        if not right:
            failed.append(f'the end of rt ci, {name}: taken for {"bad" if good else "good"}')
    print('\n'.join(failed + [f'{passed} passed, {len(failed)} failed']))
    return 1 if failed or not passed else 0


if __name__ == '__main__':
    sys.exit(main())
