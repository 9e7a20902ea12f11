#!/usr/bin/env python3
"""The store behind its lock: how often it is asked a second by 1, 2 and 4 threads, and how long additions hold the lock.

    shared.py PROGRAM [--members N] [--dim N] [--ef N] [--calls N] [--last N] [--rounds N]

PROGRAM is that of `crates/vs_measure_shared`. Figures are the medians of the rounds.
"""
import argparse
import re
import statistics
import subprocess

RATE = re.compile(r'count by (\d+) threads: (\d+) answers a second')
TIMES = re.compile(r'(now|draft|prepare|commit) (\d+) calls, (\d+) ns each, the longest (\d+) ns')


def run(program, words):
    """What one run of these words writes to standard error, line by line."""
    done = subprocess.run([program, *map(str, words)], capture_output=True, text=True)
    if done.returncode:
        raise SystemExit(done.stderr)
    return done.stderr.splitlines()


def rates(options):
    """Answers a second by the number of threads."""
    words = [options.dim, 16, options.ef, 0, 'now', 1000, 'drawn']
    for threads in (1, 2, 4):
        words += ['count', options.calls, threads]
    found = (RATE.match(line) for line in run(options.program, words))
    return {int(match[1]): int(match[2]) for match in found if match}


def holds(options, m, steps):
    """The mean and the longest time of each kind of call, step by step, in microseconds."""
    lines = run(options.program, [options.dim, m, options.ef, 0, *steps])
    found = (TIMES.match(line) for line in lines)
    return [(match[1], int(match[3]) / 1000, int(match[4]) / 1000) for match in found if match]


def median_of(rounds):
    """The medians of the same calls of several rounds."""
    return [(calls[0][0], statistics.median(call[1] for call in calls), statistics.median(call[2] for call in calls)) for calls in zip(*rounds)]


def show(title, rounds):
    print(title)
    for name, mean, longest in median_of(rounds):
        print(f'  {name:8} {mean:10.1f} us each, the longest {longest:10.1f} us')


def show_rates(options):
    rounds = [rates(options) for _ in range(options.rounds)]
    print('VCARD answers a second')
    for threads in (1, 2, 4):
        print(f'  {threads} threads {statistics.median(one[threads] for one in rounds):12,.0f}')


def show_holds(options):
    """All additions of a set in one hold each, and all by drafts."""
    for way in ('now', 'draft'):
        steps = ['now', 1, 'drawn', way, options.members, 'drawn']
        rounds = [holds(options, 16, steps)[1:] for _ in range(options.rounds)]
        show(f'{options.members} members, M 16, by {way}', rounds)


def show_levels(options):
    """The last additions to a grown set, of one level each."""
    for m in (16, 256):
        for level in (0, 5):
            steps = ['now', options.members, 'drawn', 'now', options.last, level, 'draft', options.last, level]
            rounds = [holds(options, m, steps)[1:] for _ in range(options.rounds)]
            show(f'{options.last} members more, M {m}, level {level}', rounds)


def main():
    parser = argparse.ArgumentParser(description=__doc__, formatter_class=argparse.RawDescriptionHelpFormatter)
    parser.add_argument('program')
    parser.add_argument('--members', type=int, default=20000)
    parser.add_argument('--dim', type=int, default=256)
    parser.add_argument('--ef', type=int, default=200)
    parser.add_argument('--calls', type=int, default=1000000)
    parser.add_argument('--last', type=int, default=200)
    parser.add_argument('--rounds', type=int, default=3)
    options = parser.parse_args()
    show_rates(options)
    show_holds(options)
    show_levels(options)


if __name__ == '__main__':
    main()
