#!/usr/bin/env python3
"""Runs the program `inspect` on good, damaged and random model bytes, and compares it with a reader of its own.

The reader below is written from docs/MODEL.md and docs/FAULTS.md alone. The last line is 'N passed, M failed'.
"""
import os
import random
import struct
import subprocess
import sys

ROOT = os.path.dirname(os.path.dirname(os.path.abspath(__file__)))
INSPECT = os.path.join(ROOT, 'crates', 'inspect', 'out', 'inspect')
REASONS = {
    1: 'fewer bytes are left than the record has',
    2: 'the kind is not known',
    3: 'the windows come first, and once',
    4: 'the count is beyond its limits or does not fit the length',
    5: 'a window is empty or reaches past 64',
    6: 'a variable is not there or comes twice',
    7: 'there are too many records or entries',
}


class Refused(Exception):
    pass


def judge(data):
    """What inspect is to print."""
    try:
        return '\n'.join(read(data)) + '\n'
    except Refused as e:
        number, place = e.args
        return f'refused {number} {place}: {REASONS[number]}\n'


def read(data):
    lines, at, n, records, entries = [], 0, 0, 0, 0
    while at < len(data) or at == 0:
        head = data[at:at + 4]
        if len(head) < 4:
            raise Refused(1, at)
        size, kind = struct.unpack('<HH', head)
        if kind not in (1, 2, 3):
            raise Refused(2, at)
        if (kind == 1) != (at == 0):
            raise Refused(3, at)
        body = data[at + 4:at + 4 + size]
        if len(body) < size:
            raise Refused(1, at)
        least, front, each = {1: (1, 1, 2), 2: (1, 5, 3), 3: (2, 1, 1)}[kind]
        if size == 0 or not least <= body[0] <= 64 or size != front + each * body[0]:
            raise Refused(4, at)
        parts = [body[front + each * i:front + each * (i + 1)] for i in range(body[0])]
        if kind == 1:
            n = body[0]
            if any(not low < high <= 64 for low, high in parts):
                raise Refused(5, at)
            lines.append(f'variables {n}')
            lines += [f'x{i} in {low}..{high}' for i, (low, high) in enumerate(parts)]
        else:
            records, entries = records + 1, entries + body[0]
            if records > 64 or entries > 1024:
                raise Refused(7, at)
            names = [p[0] for p in parts]
            if max(names) >= n or len(set(names)) < len(names):
                raise Refused(6, at)
            if kind == 2:
                bound = struct.unpack('<i', body[1:5])[0]
                terms = [f'{struct.unpack("<h", p[1:])[0]}*x{p[0]}' for p in parts]
                lines.append(f'sum {" + ".join(terms)} <= {bound}')
            else:
                lines.append('different ' + ' '.join(f'x{x}' for x in names))
        at += 4 + size
    return lines


def record(kind, body):
    return struct.pack('<HH', len(body), kind) + bytes(body)


def model(rng):
    n = rng.choice([1, 2, 3, 5, 63, 64])
    windows = []
    for _ in range(n):
        low = rng.randrange(64)
        windows += [low, rng.randint(low + 1, 64)]
    out = record(1, [n] + windows)
    for _ in range(rng.choice([0, 1, 2, 3, 6, 70 if rng.random() < 0.1 else 4])):
        xs = rng.sample(range(n), rng.randint(1, n))
        if rng.random() < 0.5 and len(xs) > 1:
            out += record(3, [len(xs)] + xs)
        else:
            body = struct.pack('<Bi', len(xs), rng.choice([0, -1, 7, 2**31 - 1, -2**31, rng.randrange(-999, 999)]))
            for x in xs:
                body += struct.pack('<Bh', x, rng.choice([1, -1, 0, 32767, -32768, rng.randrange(-99, 99)]))
            out += record(2, body)
    return out


def damaged(rng, data):
    data = bytearray(data)
    for _ in range(rng.choice([1, 1, 1, 2, 5])):
        what = rng.randrange(4)
        if what == 0 and data:
            del data[rng.randrange(len(data)):]
        elif what == 1 and data:
            data[rng.randrange(len(data))] = rng.choice([0, 1, 2, 3, 4, 63, 64, 65, 255, rng.randrange(256)])
        elif what == 2 and data:
            del data[rng.randrange(len(data))]
        else:
            data.insert(rng.randint(0, len(data)), rng.randrange(256))
    return bytes(data)


def inputs():
    rng = random.Random(20261118)
    yield b''
    for _ in range(120):
        good = model(rng)
        yield good
        for _ in range(6):
            yield damaged(rng, good)
    for _ in range(100):
        yield bytes(rng.randrange(8) for _ in range(rng.randrange(24)))
    example = open(os.path.join(ROOT, 'examples', 'wheel.model'), 'rb').read()
    for k in range(len(example) + 1):
        yield example[:k]


def main():
    passed = failed = 0
    for data in inputs():
        got = subprocess.run([INSPECT], input=data, capture_output=True)
        if got.returncode == 0 and got.stdout.decode() == judge(data):
            passed += 1
        else:
            failed += 1
            print(f'inspect: on {data.hex()}\n  wrote   {got.stdout!r}\n  expected {judge(data)!r}')
    print(f'{passed} passed, {failed} failed')
    return 1 if failed else 0


if __name__ == '__main__':
    sys.exit(main())
