#!/usr/bin/env python3
"""What the command `ingr` has to print, from its manual page and from the second program's listing of a file, never from the
command itself; and those trials of it that a shell cannot make: signals, terminals, files that shrink. tests/ingr.sh runs it.
Each job is a word, and ends with status 0 where all is as it must be."""
import json
import os
import pathlib
import pty
import random
import re
import resource
import signal
import struct
import subprocess
import sys
import time
import zlib

ROOT = pathlib.Path(__file__).resolve().parent.parent
SECOND = ROOT / 'tests' / 'second' / 'target' / 'release' / 'second'
PAGE = (ROOT / 'tools' / 'ingr' / 'ingr.1').read_text()


def fail(text):
    print(text)
    sys.exit(1)


def plural(number):
    return '' if number == 1 else 's'


def unroffed(text):
    for mark, plain in ((r'\-', '-'), (r'\fR', ''), (r'\(oq', "'"), (r'\(cq', "'"), (r'\e', '\\')):
        text = text.replace(mark, plain)
    return text


def section(name):
    return re.search(rf'^\.SH {name}\n(.*?)(?=^\.SH |\Z)', PAGE, re.M | re.S)[1]


def sentences(name):
    """The numbered sentences of a table of the page."""
    return {int(number): text for number, text in re.findall(r'^(\d+) +(.*)$', unroffed(section(name)), re.M)}


def options(command):
    """The options that the synopsis has for a command, and those that its part of the page explains; they have to be the same."""
    lines = unroffed(section('SYNOPSIS')).split('.br')
    found = [set(re.findall(r'--[a-z-]+', line)) for line in lines if re.match(rf'\s*\.B ingr {command}\b', line)]
    part = re.search(rf'^\.SS {command}\n(.*?)(?=^\.S[SH] |\Z)', PAGE, re.M | re.S)[1]
    explained = set()
    for line in re.findall(r'^\.TP\n(.*)$', part, re.M):
        explained |= set(re.findall(r'--[a-z-]+', unroffed(line)))
    if len(found) != 1 or found[0] != explained:
        fail(f'{command}: the synopsis has {found}, the text {explained}')
    return explained


def commands():
    return re.findall(r'^\.B ingr ([a-z]+)', unroffed(section('SYNOPSIS')), re.M)


def escaped(name):
    """A name as it is printed: on one line, with nothing that a terminal would obey."""
    text, at = '', 0
    while at < len(name):
        for length in (1, 2, 3, 4):
            try:
                one = name[at:at + length].decode()
            except UnicodeDecodeError:
                continue
            if len(one) == 1 and at + length <= len(name):
                break
        else:
            one, length = None, 1
        if one is None or ord(one) < 0x20 or 0x7f <= ord(one) <= 0x9f:
            short = {10: '\\n', 9: '\\t', 13: '\\r'}
            text += ''.join(short.get(byte, f'\\x{byte:02x}') for byte in name[at:at + length])
        else:
            text += '\\\\' if one == '\\' else one
        at += length
    return text


def second(word, file):
    with open(file, 'rb') as stream:
        return subprocess.run([SECOND, word], stdin=stream, capture_output=True, text=True, check=True).stdout.splitlines()


class Sheet:
    """A file as the second program reads it."""

    def __init__(self, file):
        self.size = os.stat(file).st_size
        listing = second('fake-listing', file)
        if not listing:
            fail(f'the second program lists nothing of {file}')
        words = listing[0].split()
        self.refused = int(words[1]) if words[0] == 'refused' else 0
        if self.refused:
            return
        self.type, self.ppl, self.nol, self.good, self.end = (int(words[i]) for i in (1, 3, 5, 9, 11))
        self.marks, self.rows = [], []
        for line in listing[1:]:
            head, row = line.split(':')
            self.marks.append(int(head.split()[1]))
            self.rows.append([int(pixel) for pixel in row.split()])
        header = second('fake-header', file)
        numbers = header[0].split()
        self.fields = {name: int(numbers[numbers.index(name) + 1]) for name in ('blocks', 'slo', 'scn', 'ctv', 'cte')}
        at = numbers.index('resolution')
        self.resolution = int(numbers[at + 1]), int(numbers[at + 2])
        self.colors = {}
        for line in header[1:]:
            value, parts = line.split(': ')
            if re.fullmatch(r'\d+ \d+ \d+', parts):
                self.colors[int(value)] = tuple(int(part) // 256 for part in parts.split())

    def lost(self):
        losing = (1, 2, 3) if self.fields['scn'] else (1, 2, 3, 7)
        return next((k for k, mark in enumerate(self.marks) if mark in losing), None)

    def ranges(self):
        """First and last line, from 1, and mark of each range of refused lines with the same mark."""
        found = []
        for k, mark in enumerate(self.marks, 1):
            if mark and found and found[-1][2] == mark and found[-1][1] == k - 1:
                found[-1][1] = k
            elif mark:
                found.append([k, k, mark])
        return found


def refused_lines(sheet):
    marks = sentences('MARKS')
    text = ''
    for first, last, mark in sheet.ranges():
        text += f'  line {first}' if first == last else f'  lines {first}-{last}'
        text += f': {marks[mark]} (mark {mark})\n'
    return text


def checked(name):
    """What `check` prints of a file that can be read."""
    sheet, shown = Sheet(name), escaped(os.fsencode(name))
    if sheet.refused:
        return f'{shown}: refused: {sentences("REFUSALS")[sheet.refused]} ({sheet.refused})\n'
    bad = sheet.nol - sheet.good
    text = f'{shown}: {bad} of {sheet.nol} lines refused' if bad else f'{shown}: good, {sheet.nol} line{plural(sheet.nol)}'
    after = sheet.size - sheet.end
    if sheet.lost() is None and after:
        text += f', {after} byte{plural(after)} after the last line'
    return text + '\n' + refused_lines(sheet)


def checked_json(name):
    """The object that `check --json` prints of a file that can be read, and its keys in order."""
    sheet, raw = Sheet(name), os.fsencode(name)
    # Each byte that does not fit becomes U+FFFD; a decoder that replaces by itself may make one of several.
    shown = ''.join('\ufffd' if 0xdc80 <= ord(letter) <= 0xdcff else letter for letter in raw.decode(errors='surrogateescape'))
    about = {'file': shown}
    if shown.encode() != raw:
        about['file_bytes'] = raw.hex()
    about['bytes'] = sheet.size
    if sheet.refused:
        return {**about, 'status': 'refused', 'number': sheet.refused, 'reason': sentences('REFUSALS')[sheet.refused]}
    ranges = [{'first': first, 'last': last, 'mark': mark, 'reason': sentences('MARKS')[mark]} for first, last, mark in sheet.ranges()]
    return {**about, 'status': 'damaged' if ranges else 'good', 'type': sheet.type, 'pixels': sheet.ppl, 'lines': sheet.nol,
            'good': sheet.good, 'end': sheet.end, 'refused': ranges}


TYPES = {1: 'packed bi-level', 2: 'bytes', 3: '16-bit words', 9: 'run-length bi-level', 10: 'run-length color'}


def described(name):
    """What `info` prints of a file that can be read."""
    sheet, text = Sheet(name), escaped(os.fsencode(name)) + '\n'

    def entry(key, value):
        return f'  {key:<14}{value}\n'

    if sheet.refused:
        return text + entry('refused', f'{sentences("REFUSALS")[sheet.refused]} ({sheet.refused})')
    slo, scn, ctv, cte = (sheet.fields[name] for name in ('slo', 'scn', 'ctv', 'cte'))
    width, height = (sheet.ppl, sheet.nol) if slo & 4 else (sheet.nol, sheet.ppl)
    kind, size = sheet.resolution
    corner = f'{"lower" if slo & 2 else "upper"} {"right" if slo & 1 else "left"}'
    after, lost, bad = sheet.size - sheet.end, sheet.lost(), sheet.nol - sheet.good
    return text + ''.join((
        entry('type', f'{sheet.type}, {TYPES[sheet.type]}'),
        entry('lines', f'{sheet.nol} of {sheet.ppl} pixel{plural(sheet.ppl)}'),
        entry('upright', f'{width} x {height}'),
        entry('resolution', ('none', f'{size} micron{plural(size)}', f'{size} dot{plural(size)} per inch')[kind]),
        entry('orientation', f'{slo}, lines are {"rows" if slo & 4 else "columns"}, the first pixel is at the {corner}'),
        entry('line headers', 'yes' if scn else 'no'),
        entry('color table', ('none', 'IGDS', f'Environ-V, {cte} entr{"y" if cte == 1 else "ies"}')[ctv]),
        entry('header', f'{512 * sheet.fields["blocks"]} bytes'),
        entry('damage', f'{bad} of {sheet.nol} lines refused' if bad else 'none'),
        entry('afterwards', f'not known: line {lost + 1}, at byte {sheet.end}, is lost' if lost is not None else
              f'{after} byte{plural(after)}, from byte {sheet.end}' if after else 'nothing')))


def decoded(file):
    """A PNG's pixels, rows of (red, green, blue), and its dots per meter, by hand."""
    raw = pathlib.Path(file).read_bytes()
    if raw[:8] != b'\x89PNG\r\n\x1a\n':
        fail(f'{file} is no PNG')
    at, packed, palette, dots = 8, b'', b'', None
    while at < len(raw):
        length, kind = struct.unpack('>I4s', raw[at:at + 8])
        data = raw[at + 8:at + 8 + length]
        if zlib.crc32(kind + data) != struct.unpack('>I', raw[at + 8 + length:at + 12 + length])[0]:
            fail(f'{file}: a sum is wrong')
        at += 12 + length
        if kind == b'IHDR':
            width, height, depth, color, _, _, laced = struct.unpack('>2I5B', data)
        elif kind == b'PLTE':
            palette = data
        elif kind == b'IDAT':
            packed += data
        elif kind == b'pHYs':
            dots = struct.unpack('>2IB', data)
    if kind != b'IEND' or laced or color not in (0, 2, 3) or depth > 8:
        fail(f'{file}: not the form of a view: color {color}, depth {depth}')
    channels = 3 if color == 2 else 1
    step, length = max(1, channels * depth // 8), (width * channels * depth + 7) // 8
    lines, before, rows = zlib.decompress(packed), bytes(length), []
    if len(lines) != height * (length + 1):
        fail(f'{file}: {len(lines)} bytes of pixels')
    for y in range(height):
        way, line = lines[y * (length + 1)], bytearray(lines[y * (length + 1) + 1:(y + 1) * (length + 1)])
        for i in range(length):
            left, up, corner = line[i - step] if i >= step else 0, before[i], before[i - step] if i >= step else 0
            guess = left + up - corner
            nearest = min((abs(guess - left), 0, left), (abs(guess - up), 1, up), (abs(guess - corner), 2, corner))[2]
            line[i] = (line[i] + (0, left, up, (left + up) // 2, nearest)[way]) & 255
        before = bytes(line)
        samples = [line[i * depth // 8] >> (8 - depth - i * depth % 8) & ((1 << depth) - 1) for i in range(width * channels)]
        if color == 2:
            rows.append([tuple(samples[3 * x:3 * x + 3]) for x in range(width)])
        elif color == 3:
            rows.append([tuple(palette[3 * i:3 * i + 3]) for i in samples])
        else:
            rows.append([(255 * i // ((1 << depth) - 1),) * 3 for i in samples])
    return rows, dots


def upright(slo, ppl, nol, lines):
    """The rows of the upright picture: bit 2 says that lines are rows, bit 0 puts the first pixel at the right, bit 1 at the bottom."""
    width, height = (ppl, nol) if slo & 4 else (nol, ppl)
    rows = [[None] * width for _ in range(height)]
    for k, line in enumerate(lines):
        for i, pixel in enumerate(line):
            x, y = (i, k) if slo & 4 else (k, i)
            rows[height - 1 - y if slo & 2 else y][width - 1 - x if slo & 1 else x] = pixel
    return rows


LISTED = [(255, 0, 255), (255, 255, 0), (0, 255, 255), (255, 128, 0), (0, 255, 0), (255, 0, 0)]
LISTED += [(red, green, blue) for red in range(0, 256, 42) for green in range(0, 256, 42) for blue in range(0, 256, 42)]


def pictured(name, words):
    """The rows of colors that `view` has to make of a file."""
    sheet, shrink = Sheet(name), 1
    first, last, slo = 1, sheet.nol, sheet.fields['slo']
    for word in words:
        if word == '--as-scanned':
            slo = 4
        elif word.startswith('--shrink='):
            shrink = int(word.split('=')[1])
        elif word.startswith('--lines='):
            first, last = (int(number) for number in (word.split('=')[1] + '-' + word.split('=')[1]).split('-')[:2])
    hatch, none = object(), object()
    lines = [[hatch] * sheet.ppl if mark else [sheet.colors.get(value, none) for value in row]
             for mark, row in zip(sheet.marks[first - 1:last], sheet.rows[first - 1:last])]
    rows = upright(slo, sheet.ppl, last - first + 1, lines)
    if shrink > 1:
        def shrunk(x, y):
            pixels = [pixel for row in rows[y:y + shrink] for pixel in row[x:x + shrink]]
            if hatch in pixels or none in pixels:
                return hatch if hatch in pixels else none
            return tuple((2 * sum(part) + len(pixels)) // (2 * len(pixels)) for part in zip(*pixels))
        rows = [[shrunk(x, y) for x in range(0, len(rows[0]), shrink)] for y in range(0, len(rows), shrink)]
    shown = {pixel for row in rows for pixel in row}
    free = [color for color in LISTED if color not in shown][:3]
    for y, row in enumerate(rows):
        for x, pixel in enumerate(row):
            if pixel is hatch:
                row[x] = free[(x + y) // 4 % 2]
            elif pixel is none:
                row[x] = free[2]
    return rows, sheet


def view(name, out, *words):
    """Whether a PNG is the picture of a file."""
    rows, sheet = pictured(name, words)
    found, dots = decoded(out)
    if found != rows:
        fail(f'{name} {words}:\nwanted {rows}\nfound  {found}')
    # A shrunk picture has fewer dots, by an eye's measure.
    kind, size = sheet.resolution
    meter = {1: 1e6 / max(size, 1), 2: size / 0.0254}.get(kind)
    if any(word.startswith('--shrink') for word in words):
        return
    if (dots is None) != (meter is None) or dots and (dots[0] != dots[1] or dots[2] != 1 or abs(dots[0] - meter) > 1):
        fail(f'{name}: a resolution of {sheet.resolution}, and pHYs {dots}')


def apart(out):
    """Whether the colors of the lower row of a picture of two are none of the upper one's."""
    upper, lower = decoded(out)[0]
    print(upper, lower)
    if set(upper) & set(lower) or len(set(lower)) != 2:
        fail('they are not apart')


def craft(room):
    """Files for every refusal that a file can have, refusal_N*, and for every mark, mark_N; the marks by damage to samples."""
    room = pathlib.Path(room)
    boundary = (ROOT / 'samples' / 'boundary.rle').read_bytes()

    def put(name, *changes, base=boundary):
        raw = bytearray(base)
        for at, value in changes:
            raw[at:at + len(value)] = value
        (room / name).write_bytes(raw)

    def word(number):
        return struct.pack('<H', number)

    def wide(number):
        return struct.pack('<I', number)

    put('refusal_10')
    os.truncate(room / 'refusal_10', 2147483648)
    (room / 'refusal_11').write_bytes(boundary[:1023])
    put('refusal_12', (0, word(0x0907)))
    put('refusal_13', (2, word(511)))
    put('refusal_14', (2, word(256 * 3 - 2)))
    put('refusal_15', (511, b'\2'))
    put('refusal_16', (4, word(4)))
    put('refusal_17', (194, b'\x08'))
    put('refusal_18', (195, b'\2'))
    put('refusal_19', (184, wide(0)))
    put('refusal_19_wide', (184, wide(65536)))
    put('refusal_20', (188, wide(0)))
    put('refusal_20_tall', (188, wide(1000001)))
    put('refusal_21', (532, word(3)))
    put('refusal_22', (532, word(2)), (536, wide(2)), (768, struct.pack('<8H', 5, 1, 2, 3, 5, 4, 5, 6)))
    put('environ', (532, word(2)), (536, wide(1)), (768, struct.pack('<4H', 0, 65535, 65535, 65535)))

    starts, at = [], 1024
    while at < len(boundary):
        starts.append(at)
        at += 4 + 2 * struct.unpack('<H', boundary[at + 2:at + 4])[0]
    third, sixth = starts[2], starts[5]
    (room / 'mark_1').write_bytes(boundary[:-1])
    put('mark_2', (sixth + 1, b'\x58'))
    put('mark_3', (sixth + 2, word(1)))
    put('mark_4', (third + 4, word(9)))
    put('mark_5', (third + 6, word(17)))
    follow = struct.unpack('<H', boundary[third + 2:third + 4])[0]
    (room / 'mark_6').write_bytes(boundary[:third + 2] + word(follow + 1) + boundary[third + 4:third + 8] + word(0) + boundary[third + 8:])
    put('mark_7', (third + 8, word(3)))
    put('mark_8', (third + 8, word(1)))
    put('mark_9', (third + 1, b'\x58'))
    (room / 'mark_10').write_bytes((ROOT / 'samples' / 'packed_damaged.dat').read_bytes())
    # Its ink is a column to the right, at both ends of the run.
    put('shifted', (third + 8, word(3)), (third + 12, word(9)))
    (room / 'longer').write_bytes(boundary + b'x' * 40)
    (room / 'byte_longer').write_bytes(boundary + b'x')
    put('huge', (184, wide(65535)), (188, wide(1000000)), base=boundary[:1024])
    # Type 3, 200 MB of zeros that take no room on a disk, and a type 1 of one wide line that alternates.
    put('sparse', (4, word(3)), (184, wide(10000)), (188, wide(10000)), (195, b'\0'), base=boundary[:1024])
    os.truncate(room / 'sparse', 1024 + 200000000)
    put('alternating', (4, word(1)), (184, wide(65535)), (188, wide(1)), base=boundary[:1024] + struct.pack('<4H', 0x5900, 4098, 1, 0) + b'\xaa\xaa' * 4096)
    # Magenta 0, yellow 1 and red 2: the mean of the last two, by halves, is orange, which is in the list too. Line 3 is refused.
    table = b'\xff\0\xff\xff\xff\0\xff\0\0'
    lines = [[2, 1] + [0] * 8, [1, 2] + [0] * 8, [0] * 10, [0] * 10]
    body = b''.join(struct.pack('<4H', 0x5900, 7, 9 if k == 3 else k, 0) + bytes(line) for k, line in enumerate(lines, 1))
    put('means', (2, word(766)), (4, word(2)), (184, wide(10)), (188, wide(4)), (532, word(1)), (768, table), base=boundary[:1024] + bytes(512) + body)
    chance = random.Random(7)
    (room / 'noise.pbm').write_bytes(b'P4\n10000 10000\n' + chance.randbytes(1250 * 10000))
    (room / 'noise.pgm').write_bytes(b'P5\n400 400 255\n' + chance.randbytes(400 * 400))
    (room / 'wide.pbm').write_bytes(b'P4\n65536 1\n' + bytes(8192))
    (room / 'tall.pbm').write_bytes(b'P4\n1 1000001\n' + bytes(1000001))
    (room / 'alternating.pgm').write_bytes(b'P5\n65535 1\n255\n' + (b'\0\xff' * 32768)[:65535])
    table = bytearray(768)
    for i in range(256):
        table[3 * i:3 * i + 3] = bytes((i, 255 - i, 7))
    (room / 'table').write_bytes(table)
    (room / 'entries.ppm').write_bytes(b'P6\n3 1\n255\n' + bytes((0, 255, 7, 5, 250, 7, 255, 0, 7)))
    (room / 'cross.pbm').write_bytes(b'P1\n3 2\n1 0 1\n0 1 0\n')


def report(words, printed):
    """Whether a report is that of these files, in this order. A word NAME=REASON is one that cannot be read."""
    lines = pathlib.Path(printed).read_bytes().decode().splitlines(keepends=True)
    for word in words:
        name, _, reason = word.partition('=')
        want = checked(name).splitlines(keepends=True) if not reason else [re.escape(escaped(os.fsencode(name))) + ': not read: ' + reason + '\n']
        got, lines = lines[:len(want)], lines[len(want):]
        if got != want and not (reason and got and re.fullmatch(want[0], got[0])):
            fail(f'wanted {want}\nfound  {got}')
    if lines or not words:
        fail(f'besides: {lines}')


def report_json(words, printed):
    lines = pathlib.Path(printed).read_bytes().decode().splitlines()
    if len(lines) != len(words) or not words:
        fail(f'{len(words)} files, {len(lines)} lines')
    for word, line in zip(words, lines):
        name, _, reason = word.partition('=')
        got = json.loads(line)
        if reason:
            want = {'file': name, 'status': 'unreadable', 'reason': got.get('reason', '')}
            if not re.fullmatch(reason, want['reason']):
                fail(f'{name}: {got}')
        else:
            want = checked_json(name)
        if json.dumps(got) != json.dumps(want):
            fail(f'wanted {json.dumps(want)}\nfound  {line}')
        if ' ' in re.sub(r'"(\\.|[^"\\])*"', '', line):
            fail(f'blanks in {line}')


def temporaries(directory):
    return [name for name in os.listdir(directory) if name.startswith('.ingr-')]


def interrupt(name, out, *words):
    """Sends a signal to a command as soon as it writes: it ends by the signal, with the old file as it was and no other left.
    Killed, it may leave one."""
    number = getattr(signal, 'SIG' + name)
    directory, old = os.path.dirname(out), os.urandom(1000)
    pathlib.Path(out).write_bytes(old)
    child = subprocess.Popen(words, stdin=subprocess.DEVNULL, stdout=subprocess.DEVNULL, stderr=subprocess.PIPE)
    until = time.monotonic() + 30
    while not temporaries(directory):
        if child.poll() is not None or time.monotonic() > until:
            child.kill()
            fail(f'no temporary was seen, status {child.wait()}, {child.stderr.read()}')
        time.sleep(0.0005)
    while number != signal.SIGKILL and not sum(os.stat(os.path.join(directory, each)).st_size for each in temporaries(directory)):
        if child.poll() is not None or time.monotonic() > until:
            break
        time.sleep(0.0005)
    child.send_signal(number)
    status = child.wait(30)
    left = temporaries(directory)
    for each in left:
        os.unlink(os.path.join(directory, each))
    if status != -number:
        fail(f'status {status}, not by signal {number}: {child.stderr.read()}')
    if pathlib.Path(out).read_bytes() != old:
        fail('the old file is not as it was')
    if left and number != signal.SIGKILL:
        fail(f'left: {left}')


def ignored(out, *words):
    """A command that was started with SIGHUP ignored goes on, as under nohup."""
    child = subprocess.Popen(words, stdin=subprocess.DEVNULL, preexec_fn=lambda: signal.signal(signal.SIGHUP, signal.SIG_IGN))
    while not temporaries(os.path.dirname(out)) and child.poll() is None:
        time.sleep(0.0005)
    child.send_signal(signal.SIGHUP)
    if child.wait(60) != 0:
        fail(f'status {child.returncode}')


def mapped(child, name):
    """Stops a child that has the file mapped."""
    until = time.monotonic() + 20
    while time.monotonic() < until and child.poll() is None:
        try:
            if os.path.basename(name) in pathlib.Path(f'/proc/{child.pid}/maps').read_text():
                child.send_signal(signal.SIGSTOP)
                return
        except OSError:
            break
    fail(f'the file was not seen mapped, status {child.poll()}')


def shrinks(file, how, *words):
    """A file, {} among the words, that is cut off, or changed, while the command has it mapped: the command says so, with status 2."""
    size = 1024 + 200000000
    os.truncate(file, size)
    child = subprocess.Popen([file if word == '{}' else word for word in words], stdout=subprocess.PIPE, stderr=subprocess.PIPE)
    mapped(child, file)
    if how == 'shorter':
        os.truncate(file, 2000)
        want = 'it became shorter while it was read'
    else:
        with open(file, 'r+b') as stream:
            stream.seek(5000)
            stream.write(b'\1')
        want = 'it changed while it was read'
    child.send_signal(signal.SIGCONT)
    out, err = child.communicate(timeout=30)
    os.truncate(file, 1024)
    os.truncate(file, size)
    said = (out + err).decode()
    if child.returncode != 2 or want not in said:
        fail(f'status {child.returncode}: {said}')


def shaken(file, *words):
    """A file that is cut off at any time: the command ends by itself."""
    size, seen = 1024 + 200000000, set()
    for i in range(10):
        os.truncate(file, size)
        child = subprocess.Popen([*words, file], stdout=subprocess.DEVNULL, stderr=subprocess.DEVNULL)
        time.sleep(0.004 * i)
        os.truncate(file, 3000)
        seen.add(child.wait(30))
    os.truncate(file, size)
    print(seen)
    if not seen <= {0, 1, 2}:
        fail('it was ended')


def terminal(total, *words):
    """Runs a command with a terminal for its messages: progress and sums are there, and its output has none of them."""
    master, slave = pty.openpty()
    child = subprocess.Popen(words, stdin=subprocess.DEVNULL, stdout=subprocess.PIPE, stderr=slave)
    os.close(slave)
    said, printed = b'', b''
    os.set_blocking(child.stdout.fileno(), False)
    while True:
        printed += child.stdout.read() or b''
        try:
            piece = os.read(master, 65536)
        except OSError:
            break
        if not piece:
            break
        said += piece
    os.set_blocking(child.stdout.fileno(), True)
    printed += child.stdout.read()
    child.wait(30)
    text = said.decode()
    if not re.search(rf'ingr check: \d+ of {total} sheets, \d+(\.\d+)? of \d+(\.\d+)? [kMGT]?B', text) or '\r' not in text:
        fail(f'no progress: {text!r}')
    # What is left on the screen is one line: the sums.
    shown = re.sub(r'\x1b\[K', '', text)
    if not re.search(rf'(\r|^)ingr check: {total} sheets: (\d+) good, (\d+) damaged, (\d+) refused, (\d+) not read *\r\n$', shown):
        fail(f'no sums at the end: {text!r}')
    sums = [int(number) for number in re.findall(r'(\d+) (?:good|damaged|refused|not read)', shown[shown.rindex('sheets:'):])]
    lines = printed.decode().splitlines()
    found = [sum(bool(re.search(pattern, line)) for line in lines if not line.startswith('  '))
             for pattern in (r': good, ', r': \d+ of \d+ lines refused', r': refused: ', r': not read: ')]
    if sums != found or sum(sums) != int(total):
        fail(f'sums {sums}, the report has {found}')
    if '\r' in printed.decode() or 'ingr check' in printed.decode():
        fail(f'progress in the output: {printed}')


def peak(most, *words):
    """Runs a command and compares its peak of memory, in bytes."""
    status = subprocess.run(words, stdin=subprocess.DEVNULL).returncode
    used = resource.getrusage(resource.RUSAGE_CHILDREN).ru_maxrss * 1024
    print(f'{used} bytes of {most}, status {status}')
    if status != 0 or used > int(most) or used < int(most) // 20:
        fail('too much, or nothing was done')


def main():
    job, words = sys.argv[1], sys.argv[2:]
    if job == 'options':
        print('\n'.join(sorted(options(words[0]))))
    elif job == 'commands':
        print('\n'.join(commands()))
    elif job == 'sentences':
        print('\n'.join(f'{number}  {text}' for number, text in sentences(words[0]).items()))
    elif job == 'check':
        print(''.join(checked(name) for name in words), end='')
    elif job == 'info':
        sys.stdout.buffer.write(''.join(described(name) for name in words).encode())
    elif job == 'report':
        report(words[1:], words[0])
    elif job == 'report_json':
        report_json(words[1:], words[0])
    elif job == 'escaped':
        sys.stdout.buffer.write(escaped(os.fsencode(words[0])).encode())
    elif job == 'has_mark':
        if int(words[0]) not in Sheet(words[1]).marks:
            fail(f'{words[1]} has not that mark')
    elif job == 'pixels':
        print(decoded(words[0])[0])
    else:
        {'view': view, 'craft': craft, 'apart': apart, 'interrupt': interrupt, 'ignored': ignored, 'shrinks': shrinks, 'shaken': shaken,
         'terminal': terminal, 'peak': peak}[job](*words)


main()
