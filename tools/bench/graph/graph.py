#!/usr/bin/env python3
"""The graph beside hnswlib: recall, searches and insertions a second of processor time, bytes a member.

Both programs generate the same vectors, grow a graph of them, and then search in turn, round after round.
"""
import argparse
import os
import statistics
import subprocess
import tempfile

EFS = [100, 200, 400]
M, EF_CONSTRUCTION, SEED = 16, 200, 0
# Blocks from this size on are given back to the system where they are freed, so that the resident memory is what is held.
ENVIRONMENT = {**os.environ, 'MALLOC_MMAP_THRESHOLD_': '65536', 'MALLOC_TRIM_THRESHOLD_': '65536'}


class Program:
    """One of the two programs: what it told so far, and its resident memory before and after the graph was grown."""

    def __init__(self, binary, kind, members, dim, searches):
        words = [kind, members, dim, M, EF_CONSTRUCTION, SEED, searches, *EFS]
        self.members, self.wanted = members, searches * min(10, members)
        self.process = subprocess.Popen(
            [binary, *map(str, words)], stdin=subprocess.PIPE, stdout=subprocess.PIPE, stderr=subprocess.PIPE, text=True, env=ENVIRONMENT
        )
        self.line_with('generated')
        before = self.resident_bytes()
        self.step()
        self.insertions = self.number_of('insertions a second')
        self.bytes = (self.resident_bytes() - before) / members
        self.searches = {ef: [] for ef in EFS}
        self.found = {}

    def step(self):
        self.process.stdin.write('on\n')
        self.process.stdin.flush()

    def line_with(self, text):
        line = self.process.stderr.readline()
        if text not in line:
            self.process.kill()
            raise SystemExit(f'{self.process.args[0]} wrote {line!r} in place of {text!r}')
        return line

    def resident_bytes(self):
        for line in open(f'/proc/{self.process.pid}/status'):
            if line.startswith('VmRSS'):
                return int(line.split()[1]) * 1024
        raise SystemExit('no VmRSS')

    def number_of(self, text):
        return int(self.line_with(text).split()[-1])

    def round(self):
        self.step()
        for ef in EFS:
            self.searches[ef].append(self.number_of(f'ef {ef} searches a second'))
        self.line_with('searched')

    def end(self):
        """Ends the program, and reads how many of the nearest it found."""
        output, _ = self.process.communicate()
        if self.process.returncode != 0:
            raise SystemExit(f'{self.process.args[0]} ended with status {self.process.returncode}')
        for line in output.splitlines()[1:]:
            _, ef, _, found = line.split()
            self.found[int(ef)] = int(found)

    def recall(self, ef):
        return self.found[ef] / self.wanted


def compare(ours_binary, peer_binary, kind, dim, args):
    ours = Program(ours_binary, kind, args.members, dim, args.searches)
    peer = Program(peer_binary, kind, args.members, dim, args.searches)
    for _ in range(args.rounds):
        ours.round()
        peer.round()
    ours.end()
    peer.end()
    print(f'\n{kind}, {dim} bits, {args.members:,} members')
    print(f'  insertions a second    {ours.insertions:8,} {peer.insertions:8,}   ratio {ours.insertions / peer.insertions:.2f}')
    print(f'  bytes a member         {ours.bytes:8.0f} {peer.bytes:8.0f}   ratio {ours.bytes / peer.bytes:.2f}')
    for ef in EFS:
        ratios = [a / b for a, b in zip(ours.searches[ef], peer.searches[ef])]
        a, b = (statistics.median(it.searches[ef]) for it in (ours, peer))
        print(
            f'  searches, EF {ef}       {a:8,.0f} {b:8,.0f}   ratio {statistics.median(ratios):.2f} ({min(ratios):.2f} to {max(ratios):.2f})'
            f'   recall {ours.recall(ef):.3f} and {peer.recall(ef):.3f}',
            flush=True,
        )


def case_of(text):
    kind, dim = text.split(':')
    return kind, int(dim)


def main():
    parser = argparse.ArgumentParser(description=__doc__)
    parser.add_argument('binary', help='the program vs_measure')
    parser.add_argument('--members', type=int, default=20_000)
    parser.add_argument('--searches', type=int, default=500, help='how many vectors each round looks for with each EF')
    parser.add_argument('--rounds', type=int, default=7)
    parser.add_argument('--flags', default='-O3 -march=x86-64-v2', help='how the peer is compiled')
    parser.add_argument('--cases', nargs='+', type=case_of, help='such as uniform:256 clustered:1024')
    args = parser.parse_args()
    cases = args.cases or [case_of(it) for it in ['uniform:256', 'clustered:768', 'clustered:1024', 'clustered:1536', 'clustered:3072']]
    with tempfile.TemporaryDirectory() as folder:
        peer = os.path.join(folder, 'peer')
        source = os.path.join(os.path.dirname(os.path.abspath(__file__)), 'peer.cpp')
        subprocess.run(['g++', '-std=c++17', *args.flags.split(), '-o', peer, source], check=True)
        print(f'M {M}, efConstruction {EF_CONSTRUCTION}, {args.searches} searches a round, {args.rounds} rounds: ours, hnswlib')
        for kind, dim in cases:
            compare(args.binary, peer, kind, dim, args)


if __name__ == '__main__':
    main()
