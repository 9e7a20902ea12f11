#!/usr/bin/env python3
"""Processor time of reading requests: `vectord script` beside redis-server, in one run.

Both get the same number of messages of the same words: ours `VSIM key VALUES n ..` of an absent key, the peer `EXISTS key VALUES n ..`. Files
are in memory, so that no disk is waited for.
"""
import argparse
import os
import random
import resource
import shutil
import socket
import subprocess
import tempfile
import threading
import time

TICK = os.sysconf('SC_CLK_TCK')

MEMORY = '/dev/shm' if os.path.isdir('/dev/shm') else None


def component(kind, rng):
    if kind == 'signs':
        return rng.choice([b'1', b'-1'])
    return b'0.0%05d' % rng.randrange(100_000)


def message(words):
    parts = [b'*%d\r\n' % len(words)]
    for word in words:
        parts.append(b'$%d\r\n%s\r\n' % (len(word), word))
    return b''.join(parts)


def messages(kind, dim, count, seed):
    """The two streams: for vectord and for redis-server."""
    rng = random.Random(seed)
    ours, peers = [], []
    for _ in range(count):
        tail = [b'key', b'VALUES', b'%d' % dim] + [component(kind, rng) for _ in range(dim)]
        ours.append(message([b'VSIM'] + tail))
        peers.append(message([b'EXISTS'] + tail))
    return b''.join(ours), b''.join(peers)


def vectord_seconds(binary, stream, reply, count):
    """User and system time of one run that answers the whole stream from a file."""
    with tempfile.TemporaryFile(dir=MEMORY) as file, tempfile.TemporaryFile(dir=MEMORY) as out:
        file.write(stream)
        file.seek(0)
        before = resource.getrusage(resource.RUSAGE_CHILDREN)
        subprocess.run([binary, 'script'], stdin=file, stdout=out, check=True)
        after = resource.getrusage(resource.RUSAGE_CHILDREN)
        out.seek(0)
        answered = out.read()
    if answered != reply * count:
        raise SystemExit(f'vectord answered {answered[:80]!r}')
    return after.ru_utime - before.ru_utime, after.ru_stime - before.ru_stime


def process_seconds(pid):
    fields = open(f'/proc/{pid}/stat').read().rsplit(')', 1)[1].split()
    return int(fields[11]) / TICK, int(fields[12]) / TICK


def read_replies(peer, reply, count, failures):
    left = len(reply) * count
    while left > 0:
        piece = peer.recv(65536)
        if not piece:
            failures.append('redis-server closed the connection')
            return
        if piece.strip(reply):
            failures.append(f'redis-server answered {piece[:80]!r}')
            return
        left -= len(piece)


def redis_seconds(pid, path, stream, count):
    """User and system time of the server for the whole stream over its unix socket, sent in pieces while replies are read."""
    peer = socket.socket(socket.AF_UNIX)
    peer.connect(path)
    failures = []
    reader = threading.Thread(target=read_replies, args=(peer, b':0\r\n', count, failures))
    before = process_seconds(pid)
    reader.start()
    peer.sendall(stream)
    reader.join()
    after = process_seconds(pid)
    peer.close()
    if failures:
        raise SystemExit(failures[0])
    return after[0] - before[0], after[1] - before[1]


def main():
    parser = argparse.ArgumentParser(description=__doc__)
    parser.add_argument('binary', help='the program vectord')
    parser.add_argument('--rounds', type=int, default=5)
    parser.add_argument('--words', type=int, default=4_000_000, help='about how many words each run reads')
    args = parser.parse_args()
    folder = tempfile.mkdtemp()
    path = os.path.join(folder, 'redis.sock')
    server = subprocess.Popen(
        ['redis-server', '--port', '0', '--unixsocket', path, '--save', '', '--appendonly', 'no', '--dir', folder],
        stdout=subprocess.DEVNULL,
    )
    try:
        while not os.path.exists(path):
            time.sleep(0.05)
        print('components  as      vectord us (user+sys)   redis-server us (user+sys)   ratio of the best   ratios')
        for kind in ['signs', 'decimals']:
            for dim in [128, 256, 1024]:
                count = args.words // (dim + 4)
                ours, peers = messages(kind, dim, count, dim)
                rows = []
                for _ in range(args.rounds):
                    a = vectord_seconds(args.binary, ours, b'*0\r\n', count)
                    b = redis_seconds(server.pid, path, peers, count)
                    rows.append((a, b))
                us = lambda pair: f'{sum(pair) / count * 1e6:6.2f} ({pair[0] / count * 1e6:.2f}+{pair[1] / count * 1e6:.2f})'
                best_ours = min((a for a, _ in rows), key=sum)
                best_peer = min((b for _, b in rows), key=sum)
                ratios = ' '.join(f'{sum(a) / sum(b):.2f}' for a, b in rows)
                print(f'{dim:10}  {kind:8}{us(best_ours):>22}  {us(best_peer):>27}   {sum(best_ours) / sum(best_peer):17.3f}   {ratios}', flush=True)
    finally:
        server.terminate()
        server.wait()
        shutil.rmtree(folder)


if __name__ == '__main__':
    main()
