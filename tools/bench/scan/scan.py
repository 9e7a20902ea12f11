#!/usr/bin/env python3
"""Exact search over TCP beside a scan in C: searches a second by one thread, by several, and by the peer's one.

    scan.py PROGRAM [--cases MEMBERS:BITS ..] [--searches N] [--rounds N]
"""
import argparse
import os
import random
import socket
import statistics
import subprocess
import tempfile
import time

HOST, PORT, COUNT = '127.0.0.1', 7392, 10
# Components that stand for the bits of a byte, as words of a request.
EIGHT = [b''.join(b'$1\r\n1\r\n' if byte >> bit & 1 else b'$2\r\n-1\r\n' for bit in range(8)) for byte in range(256)]


def word(text):
    return b'$%d\r\n%s\r\n' % (len(text), text)


def request(*texts):
    return b'*%d\r\n' % len(texts) + b''.join(word(text) for text in texts)


class Client:
    """A connection that sends several requests at once and counts the lines of their replies."""

    def __init__(self):
        self.socket = socket.create_connection((HOST, PORT))
        self.socket.setsockopt(socket.IPPROTO_TCP, socket.TCP_NODELAY, 1)
        self.input = self.socket.makefile('rb', buffering=1 << 20)

    def reply(self):
        line = self.input.readline()
        if line[:1] == b'*':
            return [self.reply() for _ in range(int(line[1:]))]
        if line[:1] == b'$':
            return self.input.read(int(line[1:]) + 2)[:-2]
        if line[:1] != b':':
            raise SystemExit(f'the server wrote {line!r}')
        return int(line[1:])

    def ask(self, requests):
        self.socket.sendall(b''.join(requests))
        return [self.reply() for _ in requests]


class Ours:
    """The server with a set of random members. Its graph is as small as it may be: an exact search doesn't look at it."""

    def __init__(self, binary, members, bits, searches):
        words = ['serve', '--port', str(PORT), '--workers', '1', '--connections', '1']
        self.process = subprocess.Popen([binary, *words], stdin=subprocess.DEVNULL, stderr=subprocess.PIPE)
        self.process.stderr.readline()
        self.client = Client()
        self.members, self.searches = members, searches
        source = random.Random(7)
        for first in range(0, members, 64):
            self.client.ask([self.addition(source, place, bits) for place in range(first, min(members, first + 64))])

    def addition(self, source, place, bits):
        values = b''.join(EIGHT[byte] for byte in source.randbytes(bits // 8))
        rest = [b'm%d' % place, b'EF', b'1', b'M', b'4']
        head = b''.join(word(text) for text in [b'VADD', b'k', b'VALUES', b'%d' % bits])
        return b'*%d\r\n' % (4 + bits + len(rest)) + head + values + b''.join(word(text) for text in rest)

    def round(self, *words):
        """Searches a second: so many for members of the set, sent at once."""
        asked = [request(b'VSIM', b'k', b'ELE', b'm%d' % (i % self.members), b'COUNT', b'%d' % COUNT, b'TRUTH', *words) for i in range(self.searches)]
        start = time.monotonic()
        replies = self.client.ask(asked)
        seconds = time.monotonic() - start
        for i, found in enumerate(replies):
            if len(found) != COUNT or found[0] != b'm%d' % (i % self.members):
                raise SystemExit(f'the server found {found!r}')
        return self.searches / seconds

    def end(self):
        self.client.socket.close()
        self.process.wait()


class Peer:
    """The scan in C."""

    def __init__(self, binary, members, bits, searches):
        words = [members, bits // 64, COUNT, searches]
        self.process = subprocess.Popen([binary, *map(str, words)], stdin=subprocess.PIPE, stdout=subprocess.PIPE, stderr=subprocess.PIPE, text=True)
        self.process.stderr.readline()

    def round(self):
        self.process.stdin.write('\n')
        self.process.stdin.flush()
        return float(self.process.stdout.readline().split()[0])

    def end(self):
        self.process.communicate()


def compare(ours_binary, peer_binary, members, bits, args):
    ours, peer = Ours(ours_binary, members, bits, args.searches), Peer(peer_binary, members, bits, args.searches)
    alone, several, scans = [], [], []
    for _ in range(args.rounds):
        alone.append(ours.round(b'NOTHREAD'))
        several.append(ours.round())
        scans.append(peer.round())
    ours.end()
    peer.end()
    print(f'\n{members:,} members of {bits} bits: searches a second over TCP, in C {statistics.median(scans):,.0f}')
    for name, them in [('one thread', alone), ('several threads', several)]:
        ratios = [a / b for a, b in zip(them, scans)]
        print(f'  {name:16} {statistics.median(them):8,.0f}   ratio {statistics.median(ratios):.2f} ({min(ratios):.2f} to {max(ratios):.2f})')
    gains = [a / b for a, b in zip(several, alone)]
    print(f'  several to one   {statistics.median(gains):8.2f} ({min(gains):.2f} to {max(gains):.2f})', flush=True)


def case_of(text):
    members, bits = text.split(':')
    return int(members), int(bits)


def main():
    parser = argparse.ArgumentParser(description=__doc__)
    parser.add_argument('binary', help='the program vectord')
    parser.add_argument('--searches', type=int, default=200, help='how many a round')
    parser.add_argument('--rounds', type=int, default=7)
    parser.add_argument('--flags', default='-O3 -march=native', help='how the peer is compiled')
    parser.add_argument('--cases', nargs='+', type=case_of, default=[(20_000, 256), (100_000, 1024)], help='such as 20000:256')
    args = parser.parse_args()
    with tempfile.TemporaryDirectory() as folder:
        peer = os.path.join(folder, 'scan')
        source = os.path.join(os.path.dirname(os.path.abspath(__file__)), 'scan.c')
        subprocess.run(['gcc', *args.flags.split(), '-o', peer, source], check=True)
        for members, bits in args.cases:
            compare(args.binary, peer, members, bits, args)


if __name__ == '__main__':
    main()
