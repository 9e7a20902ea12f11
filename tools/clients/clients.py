#!/usr/bin/python3
"""Real clients against `vectord serve`: redis-cli, redis-py, redis-benchmark, and clients that misbehave.

    clients.py PROGRAM [SECONDS]

PROGRAM is the proved server (crates/vectord/out/vectord), SECONDS the length of the mixed load (60). Needs Debian's redis-tools and
python3-redis; where one isn't installed its part is skipped and said so. Everything listens on loopback, is bounded in count and time, and
stops by itself. The exit status is 0 where every check held.
"""

import os
import random
import shutil
import socket
import subprocess
import sys
import threading
import time

try:
    import redis
except ImportError:
    redis = None

HOST = "127.0.0.1"
PORT = 7391
DIM = 64
PROGRAM = sys.argv[1]
SECONDS = float(sys.argv[2]) if len(sys.argv) > 2 else 60.0
failures = []


def check(name, holds, seen=""):
    print(("ok      " if holds else "FAILED  ") + name + ("" if holds else f": {seen!r}"), flush=True)
    if not holds:
        failures.append(name)


def skipped(name, wanted):
    print(f"skipped {name}: {wanted} isn't installed", flush=True)


class Server:
    """A server that accepts `connections` links and then ends."""

    def __init__(self, workers, connections, port=PORT):
        words = ["serve", "--port", str(port), "--workers", str(workers), "--connections", str(connections)]
        self.process = subprocess.Popen([PROGRAM, *words], stdin=subprocess.DEVNULL, stdout=subprocess.PIPE, stderr=subprocess.PIPE)
        self.first = self.process.stderr.readline().decode()

    def end(self, seconds=30):
        try:
            out, err = self.process.communicate(timeout=seconds)
        except subprocess.TimeoutExpired:
            self.process.kill()
            out, err = self.process.communicate()
            return None, out, err
        return self.process.returncode, out, err

    def threads(self):
        return len(os.listdir(f"/proc/{self.process.pid}/task"))


def connect():
    return socket.create_connection((HOST, PORT), timeout=20)


def close(client):
    client.close()
    client.connection_pool.disconnect()


def signs(generator, dim=DIM):
    return [str(generator.choice((1, -1))) for _ in range(dim)]


def message(*words):
    parts = [b"*%d\r\n" % len(words)]
    for word in words:
        data = word if isinstance(word, bytes) else str(word).encode()
        parts.append(b"$%d\r\n%s\r\n" % (len(data), data))
    return b"".join(parts)


def leave_unused(count):
    """Uses links up, so that the server ends."""
    for _ in range(count):
        with connect() as link:
            link.sendall(message("QUIT"))
            link.recv(16)


# ---- redis-cli


def run_cli():
    if shutil.which("redis-cli") is None:
        return skipped("redis-cli", "redis-tools")
    server = Server(2, 4)
    check("the server says where it listens", f"listening on {HOST}:{PORT}, 2 workers" in server.first, server.first)
    cli = ["redis-cli", "-h", HOST, "-p", str(PORT)]

    def ask(*words):
        return subprocess.run([*cli, *words], capture_output=True, text=True, timeout=20).stdout

    check("redis-cli VADD", ask("VADD", "s", "VALUES", "3", "1", "-2", "0", "a") == "1\n")
    check("redis-cli VSIM", ask("VSIM", "s", "ELE", "a") == "a\n")
    lines = "VADD s VALUES 3 1 1 1 b\nVCARD s\nVSIM s VALUES 3 1 1 1 WITHSCORES TRUTH\nGET s\nPING\n"
    piped = subprocess.run(cli, input=lines, capture_output=True, text=True, timeout=20).stdout
    check("redis-cli on its standard input", piped.splitlines()[:2] == ["1", "2"] and piped.splitlines()[-1] == "PONG", piped)
    leave_unused(1)
    status, out, err = server.end()
    check("serve --connections ends by itself", status == 0 and out == b"" and err == b"", (status, out, err))


# ---- redis-py


def run_py():
    if redis is None:
        return skipped("redis-py", "python3-redis")
    server = Server(2, 2)
    client = redis.Redis(host=HOST, port=PORT, single_connection_client=True)
    generator = random.Random(5)
    check("redis-py PING", client.ping() is True)
    for i in range(200):
        client.execute_command("VADD", "p", "VALUES", DIM, *signs(generator), f"m{i}", "CAS" if i % 2 else "BIN")
    check("redis-py VCARD", client.execute_command("VCARD", "p") == 200)
    hits = client.execute_command("VSIM", "p", "ELE", "m7", "COUNT", 5, "TRUTH")
    check("redis-py VSIM", len(hits) == 5 and hits[0] == b"m7", hits)
    try:
        client.execute_command("VSIM", "p", "ELE", "none")
        check("redis-py sees a refusal", False)
    except redis.ResponseError as refusal:
        check("redis-py sees a refusal", True, str(refusal))
    close(client)
    other = redis.Redis(host=HOST, port=PORT)
    pipe = other.pipeline(transaction=False)
    for i in range(300):
        pipe.execute_command("VSIM", "p", "ELE", f"m{i % 200}", "COUNT", 3)
    replies = pipe.execute()
    check("redis-py with a pipeline", len(replies) == 300 and all(1 <= len(r) <= 3 for r in replies))
    close(other)
    status, _, err = server.end()
    check("the server ends after redis-py", status == 0, (status, err))


# ---- redis-benchmark


def run_benchmark():
    if shutil.which("redis-benchmark") is None:
        return skipped("redis-benchmark", "redis-tools")
    server = Server(8, 100000)
    words = ["redis-benchmark", "-h", HOST, "-p", str(PORT), "-c", "6", "-n", "5000", "-q", "-r", "1000"]
    request = ["VADD", "b", "VALUES", "8", *("1 -1 1 1 -1 -1 1 -1".split()), "m__rand_int__"]
    done = subprocess.run([*words, *request], capture_output=True, text=True, timeout=60)
    check("redis-benchmark VADD", done.returncode == 0 and "requests per second" in done.stdout, done.stdout + done.stderr)
    done = subprocess.run([*words, "-P", "16", "VSIM", "b", "VALUES", "8", *("1 1 1 1 -1 -1 1 -1".split())], capture_output=True, text=True, timeout=60)
    check("redis-benchmark VSIM", done.returncode == 0 and "requests per second" in done.stdout, done.stdout + done.stderr)
    server.process.kill()
    server.process.wait()


# ---- many clients, and some that misbehave


class Load:
    def __init__(self):
        self.stop = time.monotonic() + SECONDS
        self.counts = {}
        self.wrong = []
        self.slowest = 0.0
        self.lock = threading.Lock()

    def going(self):
        return time.monotonic() < self.stop

    def note(self, kind, count, slowest):
        with self.lock:
            self.counts[kind] = self.counts.get(kind, 0) + count
            self.slowest = max(self.slowest, slowest)

    def error(self, kind, seen):
        with self.lock:
            self.wrong.append((kind, seen))


def change(load, number):
    generator = random.Random(number)
    client = redis.Redis(host=HOST, port=PORT, single_connection_client=True)
    count = 0
    slowest = 0.0
    while load.going():
        name = f"m{generator.randrange(400)}"
        begun = time.monotonic()
        if generator.random() < 0.7:
            cas = ["CAS"] if generator.random() < 0.5 else []
            reply = client.execute_command("VADD", "load", "VALUES", DIM, *signs(generator), name, *cas)
        else:
            reply = client.execute_command("VREM", "load", name)
        slowest = max(slowest, time.monotonic() - begun)
        if reply not in (0, 1):
            load.error("change", reply)
        count += 1
    load.note("changes", count, slowest)
    close(client)


def search(load, number):
    generator = random.Random(1000 + number)
    client = redis.Redis(host=HOST, port=PORT, single_connection_client=True)
    count = 0
    slowest = 0.0
    while load.going():
        exact = ["TRUTH"] if generator.random() < 0.2 else []
        begun = time.monotonic()
        reply = client.execute_command("VSIM", "load", "VALUES", DIM, *signs(generator), "COUNT", 5, "WITHSCORES", *exact)
        slowest = max(slowest, time.monotonic() - begun)
        names, scores = reply[0::2], [float(s) for s in reply[1::2]]
        is_form = len(names) <= 5 and len(set(names)) == len(names) and all(n.startswith(b"m") for n in names)
        if not (is_form and scores == sorted(scores, reverse=True) and all(0 <= s <= 1 for s in scores)):
            load.error("search", reply)
        count += 1
    load.note("searches", count, slowest)
    close(client)


def leave_in_message(load):
    while load.going():
        with connect() as link:
            link.sendall(b"*3\r\n$4\r\nVSIM\r\n$4\r\nlo")
        time.sleep(0.2)


def leave_in_reply(load):
    while load.going():
        with connect() as link:
            link.sendall(message("VSIM", "load", "VALUES", DIM, *["1"] * DIM, "COUNT", 400, "TRUTH") * 50)
            link.recv(10)
        time.sleep(0.2)


def never_read(load):
    """Sends until nothing more is taken, and reads nothing."""
    with connect() as link:
        link.settimeout(0.5)
        try:
            while load.going():
                link.sendall(message("VSIM", "load", "VALUES", DIM, *["1"] * DIM, "COUNT", 400, "TRUTH") * 20)
        except (TimeoutError, socket.timeout, OSError):
            pass
        while load.going():
            time.sleep(0.2)


def byte_by_byte(load):
    text = message("PING")
    while load.going():
        with connect() as link:
            for byte in text:
                link.sendall(bytes([byte]))
                time.sleep(0.01)
            if link.recv(16) != b"+PONG\r\n":
                load.error("byte by byte", "no reply")


def run_load():
    if redis is None:
        return skipped("the load", "python3-redis")
    server = Server(20, 1000000)
    load = Load()
    jobs = [threading.Thread(target=change, args=(load, i)) for i in range(8)]
    jobs += [threading.Thread(target=search, args=(load, i)) for i in range(8)]
    jobs += [threading.Thread(target=f, args=(load,)) for f in (leave_in_message, leave_in_reply, never_read, byte_by_byte)]
    for job in jobs:
        job.start()
    for job in jobs:
        job.join(SECONDS + 60)
    check("all clients of the load ended", not any(job.is_alive() for job in jobs))
    check("each reply of the load has its form", not load.wrong, load.wrong[:3])
    check("others had their replies all the time", load.slowest < 10, load.slowest)
    print(f"        {load.counts}, slowest reply {load.slowest * 1000:.0f} ms, {server.threads()} threads", flush=True)
    client = redis.Redis(host=HOST, port=PORT, single_connection_client=True)
    members = client.execute_command("VCARD", "load")
    check("the members are at most the names", 0 <= members <= 400, members)
    close(client)
    server.process.kill()
    server.process.wait()


# ---- the port


def run_ports():
    server = Server(1, 1)
    second = subprocess.run([PROGRAM, "serve", "--port", str(PORT)], capture_output=True, timeout=20)
    check("a second server on the port ends with 16", second.returncode == 16 and second.stdout == b"" and second.stderr != b"", second)
    leave_unused(1)
    status, _, err = server.end()
    check("the first one ends with 0", status == 0, (status, err))
    words = subprocess.run([PROGRAM, "serve", "--workers", "65"], capture_output=True, timeout=20)
    check("bad words end with 2", words.returncode == 2 and words.stdout == b"" and words.stderr != b"", words)


run_cli()
run_py()
run_benchmark()
run_ports()
run_load()
print("all checks held" if not failures else f"{len(failures)} checks failed: {', '.join(failures)}")
sys.exit(1 if failures else 0)
