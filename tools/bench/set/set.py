#!/usr/bin/env python3
"""One set: additions and removals a second, with and without a snapshot held, and the time of a look, beside hnswlib's insertions.

`vectord schedule` runs the events, so a search's look holds a snapshot from one line to a later one. Processor time of its thread counts.
"""
import argparse
import os
import random
import subprocess
import tempfile

BITS, M, EF = 256, 16, 200
HERE = os.path.dirname(os.path.abspath(__file__))
# Components that stand for the bits of a byte, as words of a line.
EIGHT = [' '.join('1' if byte >> bit & 1 else '-1' for bit in range(8)) for byte in range(256)]


class Schedule:
    """A schedule of actors that is written as it runs: what events cost is told by the thread's processor time."""

    def __init__(self, binary, actors):
        self.process = subprocess.Popen([binary, 'schedule'], stdin=subprocess.PIPE, stdout=subprocess.PIPE)
        self.process.stdin.write(b'actors %d\n' % actors)
        self.source = random.Random(5)

    def nanoseconds(self):
        with open(f'/proc/{self.process.pid}/schedstat') as file:
            return int(file.read().split()[0])

    def microseconds_of(self, lines, wanted):
        """Runs events, each of which is to print a line with this in it; the microseconds of all of them. They are sent some at a time."""
        used = 0
        for first in range(0, len(lines), 30):
            some = lines[first:first + 30]
            start = self.nanoseconds()
            self.process.stdin.write(''.join(some).encode())
            self.process.stdin.flush()
            for line in some:
                said = self.process.stdout.readline().decode()
                if not any(word in said for word in wanted):
                    raise SystemExit(f'{line[:60]!r} printed {said!r}')
            used += self.nanoseconds() - start
        return used / 1000

    def vector(self):
        return f'VALUES {BITS} ' + ' '.join(EIGHT[byte] for byte in self.source.randbytes(BITS // 8))

    def addition(self, name):
        return f'1 do {self.source.getrandbits(32)} VADD s {self.vector()} {name} EF {EF} M {M}\n'

    def end(self):
        self.process.stdin.close()
        self.process.wait()


def look(actor):
    return f'{actor} look VSIM s ELE m0 COUNT 1 EF 1\n'


def finish(actor):
    return f'{actor} finish\n'


def between(changes):
    """Each change after a look of another actor that is finished after it."""
    return [line for change in changes for line in (look(2), change, finish(2))]


DONE = (' do :1', ' looked', ' finish ')


def grown(binary, members, is_held):
    """A schedule with a set of so many members, and the microseconds of an addition while it grew, without those of reading its line."""
    schedule = Schedule(binary, 64)
    schedule.microseconds_of([schedule.addition('m0')], DONE)
    additions = [schedule.addition(f'm{place}') for place in range(1, members)]
    read = schedule.microseconds_of([f'1 do - VSIM none {schedule.vector()} EF {EF}\n' for _ in range(500)], (' do ',)) / 500
    lines = between(additions) if is_held else additions
    used = schedule.microseconds_of(lines, DONE) / len(additions)
    return schedule, read, used - read


def pairs(schedule, count):
    """The microseconds of a look, and of a look and its finish: sixty searches look one after another, then all are finished."""
    looked = finished = 0
    for _ in range(count // 30):
        looked += schedule.microseconds_of([look(actor) for actor in range(2, 32)], DONE)
        finished += schedule.microseconds_of([finish(actor) for actor in range(2, 32)], DONE)
    number = count // 30 * 30
    return looked / number, (looked + finished) / number


def measure(binary, members, changes):
    results = {}
    for is_held in (False, True):
        schedule, read, addition = grown(binary, members, is_held)
        look_alone, look_and_finish = pairs(schedule, 600)
        extra = look_and_finish if is_held else 0
        results[is_held, 'while it grows'] = addition - extra
        wrap = between if is_held else list
        added = [schedule.addition(f'n{number}') for number in range(changes)]
        removed = [f'1 do - VREM s n{number}\n' for number in range(changes)]
        results[is_held, 'additions'] = schedule.microseconds_of(wrap(added), DONE) / changes - read - extra
        results[is_held, 'removals'] = schedule.microseconds_of(wrap(removed), DONE) / changes - extra
        results[is_held, 'look'] = look_alone
        schedule.end()
    return results


def peer_insertions(members, flags):
    with tempfile.TemporaryDirectory() as folder:
        peer = os.path.join(folder, 'peer')
        source = os.path.join(HERE, '..', 'graph', 'peer.cpp')
        subprocess.run(['g++', '-std=c++17', *flags.split(), '-o', peer, source], check=True)
        words = ['uniform', members, BITS, M, EF, 0, 1, 10]
        ran = subprocess.run([peer, *map(str, words)], input='grow\n', capture_output=True, text=True, check=True)
        return next(int(line.split()[-1]) for line in ran.stderr.splitlines() if 'insertions a second' in line)


def main():
    parser = argparse.ArgumentParser(description=__doc__)
    parser.add_argument('binary', help='the program vectord')
    parser.add_argument('--members', type=int, nargs='+', default=[1_000, 20_000])
    parser.add_argument('--changes', type=int, default=500)
    parser.add_argument('--flags', default='-O3 -march=x86-64-v2', help='how the peer is compiled')
    args = parser.parse_args()
    print(f'{BITS} bits, M {M}, EF {EF}; held: a snapshot is taken before each change and dropped after it')
    for members in args.members:
        results = measure(args.binary, members, args.changes)
        peer = peer_insertions(members, args.flags)
        print(f'\n{members:,} members; hnswlib {peer:,} insertions a second')
        for name in ('while it grows', 'additions', 'removals'):
            alone, held = (1e6 / results[is_held, name] for is_held in (False, True))
            ratio = f'   of hnswlib {alone / peer:.2f} and {held / peer:.2f}' if name == 'while it grows' else ''
            print(f'  {name:16} {alone:8,.0f} a second, held {held:8,.0f}{ratio}')
        print(f"  a look           {results[False, 'look']:8.1f} us, with its line", flush=True)


if __name__ == '__main__':
    main()
