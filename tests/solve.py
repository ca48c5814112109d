#!/usr/bin/env python3
"""Runs the program `solve` on random models, by every board and rule and with random budgets, and compares what it
prints with a search of its own.

The search below is written from docs/CONSTRAINTS.md and docs/SEARCH.md alone: it keeps domains as Python sets and
filters by trying every value again until nothing goes. Its plans are also compared with a plain enumeration.
The last line is 'N passed, M failed'.
"""
import itertools
import os
import random
import struct
import subprocess
import sys

ROOT = os.path.dirname(os.path.dirname(os.path.abspath(__file__)))
SOLVE = os.path.join(ROOT, 'crates', 'solve', 'out', 'solve')
WORDS = 'the words are rule=first|small board=large|small|station|all budget=B limit=L plan=K'


def encode(model):
    windows, records = model
    body = bytes([len(windows)]) + b''.join(bytes(w) for w in windows)
    data = struct.pack('<HH', len(body), 1) + body
    for kind, bound, terms in records:
        if kind == 'sum':
            body = bytes([len(terms)]) + struct.pack('<i', bound) + b''.join(struct.pack('<Bh', x, c) for x, c in terms)
            data += struct.pack('<HH', len(body), 2) + body
        else:
            body = bytes([len(terms)]) + bytes(terms)
            data += struct.pack('<HH', len(body), 3) + body
    return data


def meets(records, plan):
    for kind, bound, terms in records:
        if kind == 'sum' and sum(c * plan[x] for x, c in terms) > bound:
            return False
        if kind == 'different' and len({plan[x] for x in terms}) < len(terms):
            return False
    return True


def supported(records, domains, x, v):
    """Whether no record takes v out of the domain of x."""
    for kind, bound, terms in records:
        if kind == 'sum':
            if x in [y for y, _ in terms]:
                least = sum(c * v if y == x else min(c * u for u in domains[y]) for y, c in terms)
                if least > bound:
                    return False
        elif x in terms and any(y != x and domains[y] == {v} for y in terms):
            return False
    return True


def filtered(records, domains):
    """The domains with every value gone that has no support, or None."""
    domains = [set(d) for d in domains]
    while all(domains):
        gone = next(((x, v) for x, d in enumerate(domains) for v in d if not supported(records, domains, x, v)), None)
        if gone is None:
            return domains
        domains[gone[0]].discard(gone[1])
    return None


def visits(records, domains, rule):
    """The nodes in order: a plan, or None."""
    domains = filtered(records, domains)
    if domains is None:
        yield None
        return
    wide = [x for x, d in enumerate(domains) if len(d) > 1]
    if not wide:
        yield tuple(min(d) for d in domains)
        return
    yield None
    x = wide[0] if rule == 'first' else min(wide, key=lambda y: (len(domains[y]), y))
    v = min(domains[x]) if rule == 'first' else max(domains[x])
    left, right = list(domains), list(domains)
    left[x], right[x] = {v}, domains[x] - {v}
    yield from visits(records, left, rule)
    yield from visits(records, right, rule)


def expected(nodes, limit, wanted, boards):
    """What solve prints for these nodes."""
    lines, number, count = [], 0, 0
    for node in nodes:
        if count == limit:
            break
        count += 1
        if node is not None:
            line = f'{number}: ' + ' '.join(map(str, node))
            if wanted is None:
                lines.append(line)
            elif wanted == number:
                return line + '\n'
            number += 1
    # a plan ends a call, so that done at a limit is only told where the last node is no plan
    cut = limit is not None and count == limit and (limit < len(nodes) or nodes[limit - 1] is not None or limit == 0)
    if not cut and wanted is not None:
        return f'no plan {wanted}\n'
    lines.append(f'spent {count}' if cut else f'done {count}')
    if boards == 'all':
        lines.append('the boards agree')
    return '\n'.join(lines) + '\n'


def run(data, *words):
    return subprocess.run([SOLVE, *words], input=data, capture_output=True, timeout=60).stdout.decode()


def some_model(rng):
    n = rng.randint(1, 4)
    windows = []
    for _ in range(n):
        low = rng.choice([0, 0, 1, 2, 58])
        windows.append((low, low + rng.randint(1, 5)))
    records = []
    for _ in range(rng.randint(0, 4)):
        if rng.random() < 0.5 and n > 1:
            records.append(('different', 0, rng.sample(range(n), rng.randint(2, n))))
        else:
            xs = rng.sample(range(n), rng.randint(1, n))
            records.append(('sum', rng.randint(-6, 12), [(x, rng.choice([-3, -1, 0, 1, 1, 2])) for x in xs]))
    return windows, records


def main():
    rng = random.Random(20261117)
    passed = failed = 0

    def check(name, want, got):
        nonlocal passed, failed
        if want == got:
            passed += 1
        else:
            failed += 1
            print(f'FAILED {name}\nwanted {want!r}\ngot    {got!r}')

    for number in range(300):
        model = some_model(rng)
        windows, records = model
        data = encode(model)
        domains = [set(range(low, high)) for low, high in windows]
        plans = {p for p in itertools.product(*domains) if meets(records, p)}
        for rule in ('first', 'small'):
            nodes = list(visits(records, domains, rule))
            listed = [p for p in nodes if p is not None]
            check(f'judge {number} {rule}', (plans, len(plans)), (set(listed), len(listed)))
            for board in ('large', 'small', 'station', 'all'):
                words = [f'rule={rule}', f'board={board}', f'budget={rng.choice([1, 2, 3, 7, 1000])}']
                check(f'{model} {words}', expected(nodes, None, None, board), run(data, *words))
            limit = rng.randint(0, len(nodes) + 1)
            words = [f'rule={rule}', f'limit={limit}', f'budget={rng.choice([1, 2, 5])}']
            check(f'{model} {words}', expected(nodes, limit, None, 'all'), run(data, *words))
            wanted = rng.randint(0, len(listed) + 1)
            words = [f'rule={rule}', f'plan={wanted}', f'board={rng.choice(["large", "small", "station", "all"])}']
            check(f'{model} {words}', expected(nodes, None, wanted, 'one'), run(data, *words))
    for word in ('rule=best', 'board=', 'budget=0', 'budget=x', 'limit=-1', 'plan=', 'plans=1', 'help', '='):
        check(word, f'unknown word {word}; {WORDS}\n', run(b'', word))
    check('no bytes', 'refused 1 0: fewer bytes are left than the record has\n', run(b''))
    check('an empty window', 'refused 5 0: a window is empty or reaches past 64\n', run(encode(([(10, 10)], []))))
    print(f'{passed} passed, {failed} failed')
    return 1 if failed else 0


sys.exit(main())
