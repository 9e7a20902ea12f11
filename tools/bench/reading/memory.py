#!/usr/bin/env python3
"""Memory of `vectord script` before and after a long reply and a DEL of what it was made of."""
import argparse
import subprocess


def message(words):
    return b'*%d\r\n' % len(words) + b''.join(b'$%d\r\n%s\r\n' % (len(word), word) for word in words)


def resident_kib(pid):
    for line in open(f'/proc/{pid}/status'):
        if line.startswith('VmRSS'):
            return int(line.split()[1])
    raise SystemExit('no VmRSS')


class Session:
    def __init__(self, binary):
        self.process = subprocess.Popen([binary, 'script'], stdin=subprocess.PIPE, stdout=subprocess.PIPE)

    def send(self, *words):
        self.process.stdin.write(message([word if isinstance(word, bytes) else str(word).encode() for word in words]))
        self.process.stdin.flush()

    def line(self):
        return self.process.stdout.readline()

    def bulk_array_bytes(self):
        """Reads an array of bulks, and how many bytes it had."""
        head = self.line()
        if head[:1] != b'*':
            raise SystemExit(f'not an array: {head!r}')
        total = len(head)
        for _ in range(int(head[1:])):
            length = self.line()
            total += len(length) + len(self.process.stdout.read(int(length[1:]) + 2)) if length != b'$-1\r\n' else len(length)
        return total


def main():
    parser = argparse.ArgumentParser(description=__doc__)
    parser.add_argument('binary', help='the program vectord')
    parser.add_argument('--members', type=int, default=4000)
    parser.add_argument('--attribute', type=int, default=16000, help='bytes of each attribute')
    args = parser.parse_args()
    session = Session(args.binary)
    session.send('PING')
    session.line()
    print(f'after PING: {resident_kib(session.process.pid)} KiB')
    attribute = b'{"a":"' + b'x' * (args.attribute - 8) + b'"}'
    for member in range(args.members):
        session.send('VADD', 'key', 'VALUES', 2, member % 2 * 2 - 1, 1, f'm{member}', 'SETATTR', attribute)
        if session.line() != b':1\r\n':
            raise SystemExit('VADD was refused')
    print(f'after {args.members} VADD: {resident_kib(session.process.pid)} KiB')
    session.send('VSIM', 'key', 'VALUES', 2, 1, 1, 'WITHATTRIBS', 'COUNT', args.members, 'TRUTH')
    print(f'reply of {session.bulk_array_bytes() / 2 ** 20:.1f} MiB: {resident_kib(session.process.pid)} KiB')
    session.send('PING')
    session.line()
    print(f'after the next PING: {resident_kib(session.process.pid)} KiB')
    session.send('DEL', 'key')
    session.line()
    session.send('PING')
    session.line()
    print(f'after DEL and PING: {resident_kib(session.process.pid)} KiB')
    session.process.stdin.close()
    session.process.wait()


if __name__ == '__main__':
    main()
