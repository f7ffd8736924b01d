#!/usr/bin/env python3
"""Looks at every must-fail edit after it was tried: it was refused, by the fact that it names, and it keeps the code's shape.

    edits.py LOG       what `rt ci`, or `rt must-fail`, said of each edit

An edit is a wrong program or a wrong definition. It shows something only where the prover refuses it because a fact no longer
holds. One that merely made a proof unfit for the code, because a step was added, dropped or renamed, would be refused however
right the program was. A goal has its name by the conditions and arms that lead to it: an edit of one whose goal is answered by
hand renames it in the answers too, by pairs of lines for `proofs/FUNCTION/Answers.antt` that do nothing else.

An edit's file has a comment, a comment `# fact: PLACE NAME`, and then `file:`, `old:` and `new:` lines. PLACE is a function, as
`module/function`, or a file of laws, as `proofs/Laws/Law.antt`; NAME is the goal or the law that is refused first. What is said
of an edit is cut after 160 characters: a NAME that goes on past them ends in `..`.
"""
import functools
import pathlib
import re
import sys

ROOT = pathlib.Path(__file__).resolve().parent.parent
LINES = ('# ', 'file: ', 'old: ', 'new: ')
FACT = '# fact: '
SAID = re.compile(r'rt: must-fail (\w+)/(\S+?)\.edit: (.*)')
REFUSED = re.compile(r'refused, as it must be(?: \((only .*?)\))?(?:: (.*))?$')
# How much of what refuses an edit is said.
CUT = 160
PLACED = re.compile(r'(?:note: )?(?:\./)?((?:src|specs|proofs)/\S+?):(\d+):\d+: (.*)')
# Proofs of a function, by the file that has them.
PROOFS = re.compile(r'proofs/(.*)/(?:Answers|Invariants|Proof)\.antt')
# What the prover says where a proof does not fit the code any more.
UNFIT = re.compile(r"is not in scope|has no `|has no field|`: (record|module) `|was not admitted|no field `|takes (more|fewer) arguments|too many arguments"
                   r"|applied to an argument but has type|λ has \d+ binder|has the type `[^`]*goal\.|(expected|has) type `goal\.")
CLAUSE = re.compile(r'\b(?:requires|ensures|ghost|decreases)\b\*?\s*\w*\s*\{')
TOKEN = re.compile(r"\d\w*(?:\.\d\w*)?|'\w+|[^\W\d]\w*|::|->|=>|\.\.=?|<<=?|>>=?|[-+*/%&|^=!<>]=|&&|\|\||\S")
KEYWORDS = set('as break const continue crate else enum extern fn for if in let loop match mod move mut pub return static struct unsafe use while'.split())
COMPARISONS = {'<': 'lt', '<=': 'le', '>': 'gt', '>=': 'ge', '==': 'eq', '!=': 'ne'}
FLIPPED = {'lt': 'gt', 'le': 'ge', 'gt': 'lt', 'ge': 'le', 'eq': 'eq', 'ne': 'ne'}
# What an answer takes of a case beside the steps of the code.
PARTS = {'args', 'requires', 'ranges', 'well_formed', 'before'}


def faults_of_text(text):
    """What is wrong with an edit's own text."""
    lines = text.splitlines()
    odd = [line for line in lines if not line.startswith(LINES) and line != 'new:']
    if odd:
        yield f'a line that nothing reads: {odd[0]!r}'
    if not lines or not lines[0].startswith('# ') or lines[0].startswith(FACT):
        yield 'no comment that says what is wrong'
    if sum(line.startswith(FACT) for line in lines) != 1:
        yield 'not one `# fact:` line'
    if not any(line.startswith('old: ') for line in lines):
        yield 'no `old:` line'


def fact_of(text):
    return ''.join(line[len(FACT):].strip() for line in text.splitlines() if line.startswith(FACT))


def said_of(log):
    """What was said of each edit, by its crate and name; the last word counts, and a second one that differs is a fault."""
    found = {}
    for line in log.splitlines():
        if said := SAID.match(line):
            found.setdefault((said[1], said[2]), []).append(said[3])
    return found


def first_refusal(said, crate):
    """The place and the name of what refuses an edit, and what was said of it, of what `rt` says after the edit's name."""
    found = REFUSED.match(said)
    if not found or not found[2]:
        return None
    text = found[2]
    placed = PLACED.match(text)
    if not placed:
        return None
    path, line, rest = placed[1], int(placed[2]), placed[3]
    if text.startswith('note: '):
        # a goal that nothing answers: it stands in parentheses after what is not proved
        goal = re.search(r"\(`([\w'-]+)(?:`\)|$)", rest)
        name = goal[1] if goal else ''
        is_cut = not goal or not goal[0].endswith(')')
        place = function_at(crate, path, line) if path.startswith('src/') else place_of(path)
    else:
        named = re.match(r"error: `([^`]+)(`: )?", rest)
        if not named:
            return None
        name, is_cut = named[1], not named[2]
        place = place_of(path)
    if is_cut and len(text) < CUT:
        return None
    return place, name + '..' * is_cut, text


def place_of(path):
    found = PROOFS.fullmatch(path)
    return found[1] if found else path


def faults_of_said(said, crate, fact):
    """What is wrong with how an edit was refused."""
    found = REFUSED.match(said)
    if not found:
        yield f'it was not refused: {said[:200]}'
        return
    if found[1]:
        yield f'refused, but {found[1]}'[:300]
        return
    first = first_refusal(said, crate)
    if first is None:
        yield f'no fact that refuses it is named: {said[:200]}'
        return
    place, name, text = first
    if UNFIT.search(text):
        yield f'its proof does not fit the code: {text}'
    if place.startswith(('specs/', 'src/')):
        yield f'{place} itself is refused, and no law or promise of it'
    if f'{place} {name}' != fact:
        yield f'refused at `{place} {name}`, and says `{fact}`'


def blanked(text):
    """A source text without its comments, clauses and attributes, line by line as it was."""
    blank = lambda part: re.sub(r'[^\n]', ' ', part)
    out, at = [], 0
    for found in re.finditer(r'//[^\n]*|/\*.*?\*/|b?"(?:\\.|[^"\\])*"', text, re.S):
        # what stands between quotes may look like anything
        kept = '"' + blank(found[0][1:-1]) + '"' if found[0][-1] == '"' else blank(found[0])
        out += [text[at:found.start()], kept]
        at = found.end()
    text = ''.join(out) + text[at:]
    for pattern, pair in ((re.compile(r'#!?\['), '[]'), (CLAUSE, '{}')):
        out, at = [], 0
        for found in pattern.finditer(text):
            if found.start() >= at:
                end = closing(text, found.end() - 1, pair)
                out += [text[at:found.start()], blank(text[found.start():end])]
                at = end
        text = ''.join(out) + text[at:]
    return re.sub(r'\bghost use\b[^;]*;', lambda found: blank(found[0]), text)


def closing(text, start, pair):
    """The place after the bracket that closes the one at `start`."""
    depth = 0
    for at in range(start, len(text)):
        depth += (text[at] == pair[0]) - (text[at] == pair[1])
        if depth == 0:
            return at + 1
    return len(text)


def spans(text):
    """The functions of a blanked source text: the name of each, and where it begins and ends. It begins where the one before it
    ends, so that the clauses and comments that stand above a body are its own; what lies between them has no name."""
    at = 0
    for found in re.finditer(r'\bfn\s+(\w+)', text):
        start = text.find('{', found.end())
        if found.start() < at or start < 0:
            continue
        end = closing(text, start, '{}')
        yield found[1], at, found.start(), end
        at = end


def module_of(path):
    parts = pathlib.PurePath(path).with_suffix('').parts[1:]
    parts = parts[:-1] if parts[-1] in ('lib', 'main', 'mod') else parts
    return ''.join(f'{part}/' for part in parts)


@functools.cache
def functions(crate, path):
    text = blanked((ROOT / 'crates' / crate / path).read_text())
    return [(name, text.count('\n', 0, end) + 1) for name, _, _, end in spans(text)]


def function_at(crate, path, line):
    """The function that has a line of a source file. An edit puts one line for one, so that it is the same line in its copy."""
    name = next((name for name, last in functions(crate, path) if line <= last), '')
    return module_of(path) + name if name else path


def shape(code):
    """Code without its operands: what is read, constants, names and the kind of a comparison. What is called, what is computed
    and cast, what is written, and where it branches and loops stay, in their order."""
    tokens = re.sub(r'(?<!&)\bmut\b', '', code)
    # an answer of a constant, or of what is read, is a value and no step; so is one of a type's constants
    tokens = re.sub(r'\b(?:Ok|Err|Some)\((?:\(\)|[\w.:]+|[A-Z]\w* \{(?: \w+: (?:\d+|true|false),?)+ \})\)', 'ANSWER', tokens)
    tokens, out = TOKEN.findall(tokens), []
    for at, token in enumerate(tokens):
        after = tokens[at + 1] if at + 1 < len(tokens) else ''
        if token == '::' or after == '::':
            continue
        if token in COMPARISONS:
            out.append('comparison')
        elif not re.match(r'\w', token) or token in KEYWORDS or out[-1:] in (['as'], ['fn']) or token[0].isalpha() and after in ('(', '!') or is_type(token) and after == '{':
            out.append(token)
        else:
            out.append('_')
    line = ' '.join(out)
    # a field is a part of what is read, and not a step
    line = re.sub(r'_(?: \. _)+(?! \()', '_', line)
    # the type of a local, and the name of a field that is given a value
    line = re.sub(r'\blet _ : [^=;]*(?=[=;])', 'let _ ', line)
    line = re.sub(r'\b_ : ', '', line)
    # the numbers that an arm of a `match` is for
    line = re.sub(r'_(?: \| _)+(?= =>| if)', '_', line)
    return listed(line.split(), [0])


def is_type(token):
    return token[0].isupper() and token != token.upper()


def listed(tokens, at):
    """Tokens up to the bracket that closes them. Of what is handed over together, the parts that are made come first, as they are
    made before, and then those that are only read."""
    parts = [[]]
    while at[0] < len(tokens):
        token = tokens[at[0]]
        at[0] += 1
        if token in ')]}':
            break
        if token == ',':
            parts.append([])
        elif token in '([{':
            parts[-1].append(f'{token} {listed(tokens, at)} {tokens[at[0] - 1]}')
        else:
            parts[-1].append(token)
    return ' , '.join(sorted((' '.join(part) for part in parts if part), key=lambda part: part == '_'))


def shapes(text):
    """The shape of each function of a source text, and under no name that of the rest."""
    text = blanked(text)
    found, rest, at = {}, [], 0
    for name, _, start, end in spans(text):
        rest.append(text[at:start])
        found[name] = shape(text[start:end])
        at = end
    found[''] = shape(' '.join([*rest, text[at:]]))
    return found


def pairs(text):
    """What an edit puts for what, and in which file."""
    path, old = '', None
    for line in text.splitlines():
        if line.startswith('file: '):
            path = line[6:].strip()
        elif line.startswith('old: '):
            old = line[5:]
        elif line.startswith('new:') and old is not None:
            yield path, old, line[4:].removeprefix(' ')


def edited(crate, text, part):
    """The files of a part that an edit changes, each as it is and as the edit makes it; what cannot be applied is said by `rt`."""
    files = {}
    for path, old, new in pairs(text):
        if path.startswith(part):
            before = files.setdefault(path, [(ROOT / 'crates' / crate / path).read_text()] * 2)
            files[path] = [before[0], before[1].replace(old, new)]
    return files


def number(side):
    """A number as a goal's name has it; one in hexadecimal digits beyond 9 leaves no trace there."""
    plain = re.fullmatch(r'(0x[\d_]+|\d[\d_]*?)(?:[ui](?:\d+|size))?', side)
    return str(int(plain[1], 0)) if plain else ''


def condition(text):
    """The name that goals have for a condition: of the first two that it names outside calls, and a number or a constant."""
    text, is_not = re.sub(r'\bas \w+', '', text), text.startswith('!')
    while (shorter := re.sub(r'(\w?)\(([^()]*)\)', lambda found: found[1] or found[2], text)) != text:
        text = shorter
    left, sign, right = [*map(str.strip, re.split(r'\s(<=|>=|==|!=|<|>)\s', text)), '', ''][:3]
    sign = COMPARISONS.get(sign, '')
    is_fixed = lambda side: re.fullmatch(r'\d\w*|[A-Z][A-Z_\d]+', side)
    if is_fixed(left) and sign:
        left, sign, right = right, FLIPPED[sign], left
    end = '' if not is_fixed(right) else f'-{sign}-{right}' if right[0].isalpha() else number(right) and f'-{sign}{number(right)}'
    named = re.findall(r'(?<![\w.])[^\W\d]\w*', left if is_fixed(right) else f'{left} {right}')
    return 'not-' * is_not + '-'.join(list(dict.fromkeys(named))[:2]) + end


def conditions(code):
    """The names by which the conditions and the arms of a function's code stand in those of its goals, as far as they can be told."""
    found = [condition(part) for text in re.findall(r'\bif\s+([^{]*?)\s*\{', code) for part in re.split(r'\s*(?:&&|\|\|)\s*', text)]
    # a name that stands again is counted
    found = [name if name not in found[:at] else f'{name}-{found[:at + 1].count(name)}' for at, name in enumerate(found)]
    return {*found, *(f'in-{arm}' for arm in re.findall(r'\b(\d+) =>', code))}


def gone(crate, text):
    """The conditions and arms whose names an edit changes, by function."""
    found = {}
    for path, sources in edited(crate, text, 'src/').items():
        before, now = ({name: conditions(blanked(source)[start:end]) for name, _, start, end in spans(blanked(source))} for source in sources)
        found |= {module_of(path) + name: lost for name in before if (lost := before[name] - now.get(name, set()))}
    return found


def renamed(crate, place, name, text):
    """An answer of a function that lacks its goal under an edit, because the goal has another name there; `name` is a goal that is
    there."""
    path = f'proofs/{place}/Answers.antt'
    if not (ROOT / 'crates' / crate / path).is_file():
        return None
    answers = edited(crate, text, path).get(path, [(ROOT / 'crates' / crate / path).read_text()])[-1]
    lost = gone(crate, text).get(place, set())
    for answer in re.findall(r'^pub ([^\s:]+) :', answers, re.M):
        parted = re.fullmatch(r'(?:.*-)?(?:(?:then|else)-(.*)|(in-\d+))', re.sub(r'-clause-.*', '', answer))
        if parted and answer != name and (parted[1] or parted[2]) in lost:
            return answer
    return None


def goals_renamed(old, new):
    """The goals that a pair gives other names, where it declares them or where it brings their names from Goals."""
    for line in r'pub (\S+) : goal\.\1', r'.*\bGoals\.\{(.*?)\}?':
        both = [re.fullmatch(line, text) for text in (old, new)]
        if all(both):
            yield from zip(*(re.split(r',\s*', found[1]) for found in both))


def is_step(words, at):
    """Whether a word is a step of the code, whose facts are taken: of an answer's case, or a condition of one of its branches."""
    name = words[at]
    return words[at - 1:at] == ['.'] and (words[at - 2] == 'c' and words[at + 1:at + 2] == ['.'] and name[0].isalpha() and name not in PARTS or name.startswith('if-'))


def faults_of_proofs(text):
    """What an edit changes in proofs beside the names of goals and steps, each to one other name."""
    changes = [(path, old, new) for path, old, new in pairs(text) if path.startswith('proofs/')]
    goals = {pair for path, old, new in changes if PROOFS.fullmatch(path) for pair in goals_renamed(old, new)}
    names = {}
    for path, old, new in changes:
        if not PROOFS.fullmatch(path):
            yield f'it changes {path}: a law is what refuses an edit'
            continue
        was, now = (re.findall(r"[\w'-]+|\S", line) for line in (old, new))
        fits = lambda i: ((was[i], now[i]) in goals or is_step(was, i) and is_step(now, i)) and names.setdefault(was[i], now[i]) == now[i]
        if len(was) != len(now) or not all(was[i] == now[i] or fits(i) for i in range(len(was))):
            yield f'it changes a proof and not only its names: {old.strip()[:80]}'


def other_shapes(crate, text):
    """The functions whose shape an edit changes."""
    for path, (before, now) in sorted(edited(crate, text, 'src/').items()):
        before, now = shapes(before), shapes(now)
        for name in sorted(before.keys() | now.keys()):
            if before.get(name) != now.get(name):
                yield module_of(path) + (name or f'{path} outside functions')


def check(path, said):
    crate, label = path.parent.parent.name, path.stem
    text = path.read_text()
    yield from faults_of_text(text)
    yield from faults_of_proofs(text)
    told = said.get((crate, label), [])
    if not told:
        yield 'it was not tried'
    for one in sorted(set(told)):
        yield from faults_of_said(one, crate, fact_of(text))
    for place in sorted(gone(crate, text)):
        if answer := renamed(crate, place, '', text):
            yield f'the goal that proofs/{place}/Answers.antt answers as `{answer}` has another name under it: rename it there too'
    changed = list(other_shapes(crate, text))
    if changed:
        yield f'it changes the steps of {", ".join(changed)}, and not only what they are done with'


def main(log):
    said = said_of(pathlib.Path(log).read_text(errors='replace'))
    edits = sorted((ROOT / 'crates').glob('*/must-fail/*.edit'))
    bad = 0
    for path in edits:
        for fault in check(path, said):
            bad += 1
            print(f'{path.parent.parent.name}/{path.stem}: {fault}')
    if len(said) != len(edits):
        bad += 1
        print(f'{len(edits)} edits, and {len(said)} of which something is said')
    print(f'{len(edits)} edits, {bad} faults')
    return 1 if bad or not edits else 0


if __name__ == '__main__':
    if len(sys.argv) != 2:
        sys.exit(__doc__)
    sys.exit(main(sys.argv[1]))
