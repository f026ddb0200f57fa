#!/usr/bin/env python3
"""Measures programs on scripts that have the loads of docs/COSTS.md, each made anew from one seed.

usage: bench.py [--beside PROGRAM].. [--only NAME,NAME] [--all] [--repeat N] [--words "WORDS"] [--limit SECONDS] [--count] PROGRAM

PROGRAM is the built server (crates/seamless/out/seamless after `rt run` there), or any other that reads the same scripts. Those named by
--beside are run between its runs, so that all of them meet the same machine, and have ratios to it. A program may have words of its own
after commas, and a name before a colon and an equals sign:  one:=/tmp/seamless,--workers=1

For each workload and program a line has the middle and the least of N runs (3 if not given): the time, the processor seconds, and the
greatest memory. A first run, which is not measured, compares what is printed: wholly where the rules leave no choice, else what they fix;
a program that prints otherwise than PROGRAM is marked DIFFERS. With --count a line has in place of times the millions of instructions
that `valgrind --tool=callgrind` counts in one run, which do not depend on what else the machine does.

Workloads, those after the stroke only with --all or --only:
"""
import argparse
import hashlib
import os
import random
import re
import resource
import signal
import statistics
import subprocess
import sys
import tempfile
import threading
import time

SEED = 20240917
# sixteen cells of equal size
CUTS = ['cut 0 x 5000', 'cut 0 x 2500', 'cut 1 x 7500']
CUTS += [f'cut {c} z 5000' for c in range(4)] + [f'cut {c} z 2500' for c in range(4)] + [f'cut {c} z 7500' for c in range(4, 8)]
SIZE = 10000


def base(entity):
    """The sender of an entity's calls, so that one alone calls it."""
    return 'b1' if entity % 2 else 'b2'


def anywhere(draw):
    return f'{draw.randrange(SIZE)} {draw.randrange(SIZE)}'


def fill(draw):
    """65,536 avatars made, then 200,000 calls and moves in rounds of 50,000, in one cell"""
    yield '%%'
    entities = draw.sample(range(1, 1 << 32), 65536)
    for e in entities:
        yield f'create {e} Avatar {anywhere(draw)}'
    for k in range(200000):
        e = draw.choice(entities)
        sender, deed = base(e), draw.randrange(6)
        calls = [f'hit {draw.randrange(100)}', f'heal {draw.randrange(100)}', f'pay {draw.randrange(9)}']
        move = f'move {sender} {e} {anywhere(draw)}'
        calls += ['', f'cast {draw.randrange(30)}', f'write "note {k}"']
        yield move if deed == 3 else f'call {sender} {e} {calls[deed]}'
        if k % 50000 == 49999:
            yield 'sync'


def walkers(draw, count, clients, rounds, deeds, moving=.85, after=lambda deed: [], at_end=()):
    """Entities that walk over sixteen cells, and are called at times."""
    yield '%%'
    yield from CUTS
    places = {}
    for e in range(1, count + 1):
        places[e] = [draw.randrange(SIZE), draw.randrange(SIZE)]
        yield f'create {e} Avatar {places[e][0]} {places[e][1]}'
    for e in draw.sample(range(1, count + 1), clients):
        yield f'client {e}'
    yield 'sync'
    for _ in range(rounds):
        for deed in range(deeds):
            e = draw.randrange(count) + 1
            if draw.random() < moving:
                places[e] = [min(SIZE - 1, max(0, at + draw.randrange(-150, 151))) for at in places[e]]
                yield f'move {base(e)} {e} {places[e][0]} {places[e][1]}'
            else:
                yield f'call {base(e)} {e} hit {draw.randrange(10)}'
            yield from after(deed)
        yield from at_end
        yield 'sync'


def walk(draw):
    """16 cells, 2,000 entities, 64 clients, 100 rounds of 2,000 moves over borders"""
    return walkers(draw, 2000, 64, 100, 2000)


def balance(draw):
    """as walk, with a balance in each of 20 rounds, and 20 looks inside each"""
    def looks(deed):
        return ['tick'] if deed % 100 == 50 else []
    return walkers(draw, 2000, 64, 20, 2000, after=looks, at_end=['balance'])


def crowd(draw):
    """4,000 entities in 500 by 500 over a border, 256 clients, 6 rounds of 1,000 moves and calls"""
    def near():
        return f'{4750 + draw.randrange(500)} {4750 + draw.randrange(500)}'
    yield '%%'
    yield 'cut 0 x 5000'
    for e in range(1, 4001):
        yield f'create {e} Avatar {near()}'
    for e in range(1, 257):
        yield f'client {e * 13}'
    yield 'sync'
    for _ in range(6):
        for _ in range(1000):
            e = draw.randrange(4000) + 1
            if draw.random() < .5:
                yield f'move {base(e)} {e} {near()}'
            else:
                yield f'call {base(e)} {e} feel {draw.randrange(-128, 128)}'
        yield 'sync'


REFUSED = [
    'call b1 5 hit 99999999999', 'call b1 5 write "never ended', 'call b1 777777 hit 1', 'call b9 5 hit 1', 'call b1 5 jump 1',
    'move b1 5 10000 5', 'move c7 8 5 5', 'create 5 Avatar 1 1', 'create 500 Dragon 1 1', 'create 500 Avatar 10000 1', 'frobnicate 1 2 3',
    'call b1', 'client 7', 'client 5000', 'cut 0 y 5', 'cut 9 x 5', 'cut 0 x 5000', 'shift 1 0', 'shift 3 5', 'destroy 4000',
    'call b1 5 write "a\\q"', ' '.join('x' * 17), 'call c7 8 promote', 'call c7 7 write "x"', 'create 01 Avatar 1 1', 'sync now',
    '# a note that is passed over', '', 'call b1 5 write "' + 'x' * 300 + '"', 'call b2 5 feel -129', 'tick tock', 'x' * 200]


def refused(draw):
    """1,000,000 lines, nearly all refused, each cause among them"""
    yield '%%'
    yield 'cut 0 x 5000'
    for e in range(1, 101):
        yield f'create {e} Avatar {anywhere(draw)}'
    yield 'client 7'
    for _ in range(1000000):
        yield draw.choice(REFUSED)
    yield 'sync'


def cross(draw):
    """8 entities that cross a border at each move, called by another sender, 3 rounds of 32,000"""
    yield '%%'
    yield 'cut 0 x 5000'
    for e in range(1, 9):
        yield f'create {e} Avatar 4900 {e * 1000}'
    yield 'sync'
    for _ in range(3):
        for turn in range(2000):
            x = 4900 if turn % 2 else 5100
            for e in range(1, 9):
                yield f'move b1 {e} {x} {e * 1000}'
                yield f'call b2 {e} hit 1'
        yield 'sync'


def rounds(draw):
    """1,000 rounds of 5 calls, with 50 entities"""
    yield '%%'
    yield 'cut 0 x 5000'
    for e in range(1, 51):
        yield f'create {e} Avatar {anywhere(draw)}'
    yield 'sync'
    for _ in range(1000):
        for _ in range(5):
            e = draw.randrange(50) + 1
            yield f'call {base(e)} {e} hit 1'
        yield 'sync'


def looks(draw):
    """8,192 entities, 100 clients, one round of 1,000 moves with a look after each"""
    yield '%%'
    for e in range(1, 8193):
        yield f'create {e} Avatar {anywhere(draw)}'
    for e in draw.sample(range(1, 8193), 100):
        yield f'client {e}'
    yield 'sync'
    for _ in range(1000):
        e = draw.randrange(8192) + 1
        yield f'move {base(e)} {e} {anywhere(draw)}'
        yield 'tick'
    yield 'sync'


def spot(draw):
    """256 avatars with clients at one place, one round of 250 moves with a look after each"""
    yield '%%'
    for e in range(1, 257):
        yield f'create {e} Avatar 5000 5000'
    for e in range(1, 257):
        yield f'client {e}'
    yield 'sync'
    for _ in range(250):
        e = draw.randrange(256) + 1
        yield f'move {base(e)} {e} {5000 + draw.randrange(10)} 5000'
        yield 'tick'
    yield 'sync'


def empty(draw):
    """100,000 empty rounds"""
    yield '%%'
    for _ in range(100000):
        yield 'sync'


def load(draw):
    """65,536 avatars made in one round"""
    yield '%%'
    for e in draw.sample(range(1, 1 << 32), 65536):
        yield f'create {e} Avatar {anywhere(draw)}'


def called(draw):
    """as load, and then each called once in a second round"""
    yield '%%'
    entities = draw.sample(range(1, 1 << 32), 65536)
    for e in entities:
        yield f'create {e} Avatar {anywhere(draw)}'
    for e in entities:
        yield f'call {base(e)} {e} hit 1'


def births(draw):
    """30 rounds in which 2,000 entities are made and those of the round before destroyed, 16 clients each"""
    yield '%%'
    yield 'cut 0 x 5000'
    former = []
    for k in range(30):
        for e in former:
            yield f'destroy {e}'
        former = list(range(k * 2000 + 1, k * 2000 + 2001))
        for e in former:
            yield f'create {e} Avatar {anywhere(draw)}'
        for e in former[:16]:
            yield f'client {e}'
        yield 'sync'


def many(draw):
    """16 cells, 20,000 entities, 6 rounds of 60,000 moves and calls, so that workers play them"""
    return walkers(draw, 20000, 0, 6, 60000, moving=.5)


# what draws generated inputs, and scripts
STORMS = {'storm-1k': 1000, 'storm-100k': 100000, 'storm-1m': 1000000}
USUAL = [fill, walk, crowd, refused, cross, rounds, balance]
MORE = [looks, spot, empty, load, called, births, many]
MADE = {work.__name__: work for work in USUAL + MORE}
NAMES = list(STORMS) + list(MADE)
# Where the rules leave the order of two senders' calls to the server, or a look inside the round.
FREE_ORDER = {'cross'}
FREE_LOOKS = {'balance', 'looks', 'spot'}


def listed():
    lines = [f'  {name:11} --storm {lines}: an input of so many lines that the program generates' for name, lines in STORMS.items()]
    for name, work in MADE.items():
        lines.append(f'{"|" if work in MORE else " "} {name:11} {work.__doc__}')
    return '\n'.join(lines)


class Late(Exception):
    """A run took too long."""


def processor_seconds():
    used = resource.getrusage(resource.RUSAGE_CHILDREN)
    return used.ru_utime + used.ru_stime


def run(command, source, target, limit):
    """Runs a command: its seconds, its processor seconds, its greatest memory in megabytes, and its status."""
    with tempfile.NamedTemporaryFile() as note, open(source, 'rb') as lines, open(target, 'wb') as out:
        before, start = processor_seconds(), time.perf_counter()
        process = subprocess.Popen(['/usr/bin/time', '-q', '-o', note.name, '-f', '%M', *command], stdin=lines, stdout=out,
                                   stderr=subprocess.DEVNULL, start_new_session=True)
        late = []
        timer = threading.Timer(limit, lambda: (late.append(1), os.killpg(process.pid, signal.SIGKILL)))
        timer.start()
        status = process.wait()
        seconds = time.perf_counter() - start
        timer.cancel()
        if late:
            raise Late
        memory = int(open(note.name).read().split()[-1]) / 1024
        return seconds, processor_seconds() - before, memory, status


def fixed_part(name, line):
    """What the rules fix of a line."""
    words = line.split(b' ')
    if name in FREE_LOOKS:
        # ghosts and clients' lines rest on looks, and a home's cell on whether the look inside came before a call
        if words[0] in (b'ghost', b'to'):
            return b''
        if words[0] == b'home':
            return b' '.join(words[:2] + words[3:])
    if words[0] == b'ghost' and name in FREE_ORDER:
        return b' '.join(words[:3])
    return line


def print_of(name, path):
    """A print of what a program printed. Where the order of calls is free these are sorted."""
    digest, calls = hashlib.sha256(), []
    with open(path, 'rb') as text:
        if name not in FREE_ORDER | FREE_LOOKS:
            while block := text.read(1 << 20):
                digest.update(block)
            return digest.hexdigest()[:12]
        for line in text:
            if line.startswith((b'did ', b'dob ')):
                calls.append(line)
                continue
            for call in sorted(calls):
                digest.update(call)
            calls = []
            digest.update(fixed_part(name, line))
    return digest.hexdigest()[:12]


class Program:
    def __init__(self, spelled, words):
        name, _, rest = spelled.rpartition(':=')
        path, *own = rest.split(',')
        self.name = name or ' '.join([os.path.basename(path), *own])
        self.command = [path, *words, *own]


def source_of(name, folder):
    """The script of a workload, and the words that it needs."""
    if name in STORMS:
        return '/dev/null', ['--storm', str(STORMS[name])]
    path = os.path.join(folder, name + '.txt')
    with open(path, 'w') as out:
        out.writelines(line + '\n' for line in MADE[name](random.Random(SEED)))
    return path, []


def compared(name, programs, source, words, folder, limit):
    """For each program a print of what it prints, and its length; None where it takes too long."""
    prints = []
    path = os.path.join(folder, 'printed')
    for program in programs:
        try:
            status = run(program.command + words, source, path, limit)[3]
            mark = f' STATUS {status}' if status else ''
            prints.append((print_of(name, path), f'{os.path.getsize(path) / 1e6:.1f} MB{mark}'))
        except Late:
            prints.append(None)
    return prints


def count(program, source, words, folder, limit):
    """The millions of instructions of a run."""
    path = os.path.join(folder, 'counts')
    command = ['valgrind', '--tool=callgrind', f'--callgrind-out-file={path}', *program.command, *words]
    run(command, source, '/dev/null', limit)
    found = re.search(r'^(?:summary|totals): (\d+)', open(path).read(), re.M)
    return int(found.group(1)) / 1e6


def middle(runs, place):
    return max(1e-4, statistics.median(times[place] for times in runs))


def measure_counts(name, programs, prints, source, words, folder, limit):
    first = None
    for program, printed in zip(programs, prints):
        try:
            millions = count(program, source, words, folder, limit * 50)
        except Late:
            print(f'{name:11}{program.name:24} takes too long', flush=True)
            continue
        first = first or millions
        print(f'{name:11}{program.name:24}{millions:12.1f}{millions / first:7.2f}  {told(prints, printed)}', flush=True)


def measure_times(name, programs, prints, source, words, limit, repeat):
    runs = [[] for _ in programs]
    for _ in range(repeat):
        for place, program in enumerate(programs):
            if prints[place]:
                runs[place].append(run(program.command + words, source, '/dev/null', limit))
    for place, program in enumerate(programs):
        if not prints[place]:
            print(f'{name:11}{program.name:24} takes too long', flush=True)
            continue
        own, first = runs[place], runs[0] or runs[place]
        seconds, used, least = middle(own, 0), middle(own, 1), min(times[0] for times in own)
        memory = max(times[2] for times in own)
        print(f'{name:11}{program.name:24}{seconds:9.3f}{seconds / middle(first, 0):7.2f}{least:9.3f}{used:9.3f}'
              f'{used / middle(first, 1):7.2f}{memory:9.1f}  {told(prints, prints[place])}', flush=True)


def told(prints, printed):
    if not printed:
        return 'takes too long'
    differs = '  DIFFERS' if prints[0] and prints[0][0] != printed[0] else ''
    return f'{printed[0]} {printed[1]}{differs}'


def main():
    parser = argparse.ArgumentParser(description=__doc__ + listed(), formatter_class=argparse.RawDescriptionHelpFormatter)
    parser.add_argument('program')
    parser.add_argument('--beside', action='append', default=[], metavar='PROGRAM')
    parser.add_argument('--only', type=lambda names: names.split(','), default=[], metavar='NAME,NAME')
    parser.add_argument('--all', action='store_true')
    parser.add_argument('--repeat', type=int, default=3)
    parser.add_argument('--words', type=str.split, default=[])
    parser.add_argument('--limit', type=float, default=300)
    parser.add_argument('--count', action='store_true')
    asked = parser.parse_args()
    if unknown := set(asked.only) - set(NAMES):
        sys.exit(f'no such workload: {" ".join(sorted(unknown))}\n{listed()}')
    usual = NAMES if asked.all else list(STORMS) + [work.__name__ for work in USUAL]
    programs = [Program(spelled, asked.words) for spelled in [asked.program, *asked.beside]]
    if asked.count:
        print(f'{"workload":11}{"program":24}{"millions":>12}{"ratio":>7}  printed')
    else:
        print(f'{"workload":11}{"program":24}{"time":>9}{"ratio":>7}{"least":>9}{"used":>9}{"ratio":>7}{"MB":>9}  printed')
    with tempfile.TemporaryDirectory() as folder:
        for name in asked.only or usual:
            source, words = source_of(name, folder)
            prints = compared(name, programs, source, words, folder, asked.limit)
            if asked.count:
                measure_counts(name, programs, prints, source, words, folder, asked.limit)
            else:
                measure_times(name, programs, prints, source, words, asked.limit, asked.repeat)


if __name__ == '__main__':
    main()
