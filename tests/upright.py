#!/usr/bin/env python3
"""Reads the sample that was scanned sideways and turns what was read, with the proved programs: the upright picture is the one
that the README shows, and turned back it is the listing again. The last line is 'N passed, M failed'."""
import pathlib
import re
import struct
import subprocess

ROOT = pathlib.Path(__file__).resolve().parent.parent
SAMPLE = ROOT / 'samples' / 'sideways.rle'


def run(program, given):
    done = subprocess.run([ROOT / 'target' / 'bin' / program], input=given, capture_output=True)
    return done.stdout if done.returncode == 0 else b''


def turned(way, slo, ppl, nol, pixels):
    """The width and the pixels that the turning program prints."""
    numbers = struct.pack('<7I', way, slo, ppl, nol, len(pixels), len(pixels), 7)
    printed = run('turn_probe', numbers + struct.pack(f'<{len(pixels)}H', *pixels))
    found = re.match(rb'turned (\d+) (\d+)\n', printed)
    if not found:
        return 1, []
    return int(found[1]), list(struct.unpack(f'<{len(pixels)}H', printed[found.end():]))


def drawn(width, pixels):
    text = ''.join('#' if pixel else '.' for pixel in pixels)
    return [text[at:at + width] for at in range(0, len(text), width)]


file = SAMPLE.read_bytes()
lines = [line.split(': ')[1].split() for line in run('listing', file).decode().splitlines()[1:]]
pixels = [int(pixel) for line in lines for pixel in line]
slo, ppl, nol = file[194], len(lines[0]), len(lines)
width, upright = turned(0, slo, ppl, nol, pixels)
shown = re.findall(r'^    ([.#]+)$', (ROOT / 'README.md').read_text(), re.M)
trials = {
    'the upright picture is the one that the README shows': drawn(width, upright) == shown and bool(shown),
    'turned back it is the sheet again': turned(1, slo, ppl, nol, upright) == (width, pixels),
}
for name, right in trials.items():
    print(f'{"upright" if right else "FAILED"}: {name}')
failed = list(trials.values()).count(False)
print(f'{len(trials) - failed} passed, {failed} failed')
raise SystemExit(1 if failed else 0)
