"""Runs of the built programs, in which the allocation of one number finds no memory; none has the number 0."""
import contextlib
import socket
import subprocess
from dataclasses import dataclass

BAD_WORDS = 2
WRITE_FAULT = 6
NO_MEMORY = 7
ACCEPT_FAULT = 10
BIND_FAULT = 16
SECONDS = 60
MARK = "refused\n"
LISTENING = b"listening on"


@dataclass
class Run:
    """What came of a run: its exit status, what it wrote or sent, whether an allocation was refused, and what it told on standard error."""

    status: int
    output: bytes
    refused: bool
    told: str


def environment(library, number):
    return {"LD_PRELOAD": library, "REFUSE": str(number)}


def run(words, data, library, number):
    """A program that reads standard input and writes standard output."""
    ran = subprocess.run(words, input=data, env=environment(library, number), capture_output=True, timeout=SECONDS)
    told = ran.stderr.decode(errors="replace")
    return Run(ran.returncode, ran.stdout, MARK in told, told)


def free_port():
    with socket.socket() as any_port:
        any_port.bind(("127.0.0.1", 0))
        return any_port.getsockname()[1]


def sent_over(port, data):
    """What a link sends for this input. A link that the server cuts has sent what came before."""
    received = b""
    try:
        with socket.create_connection(("127.0.0.1", port), timeout=SECONDS) as link:
            link.sendall(data)
            # a link that the server has left is at its end already
            with contextlib.suppress(OSError):
                link.shutdown(socket.SHUT_WR)
            while piece := link.recv(65536):
                received += piece
    except (BrokenPipeError, ConnectionRefusedError, ConnectionResetError):
        pass
    return received


def run_link(program, data, library, number):
    """A server of one worker that serves one link."""
    port = free_port()
    words = [program, "serve", "--port", str(port), "--workers", "1", "--connections", "1"]
    # unbuffered, so that what isn't read by lines is left for the end
    server = subprocess.Popen(words, env=environment(library, number), stdin=subprocess.DEVNULL, stderr=subprocess.PIPE, bufsize=0)
    told, output = b"", b""
    while line := server.stderr.readline():
        told += line
        if LISTENING in line:
            output = sent_over(port, data)
            break
    _, rest = server.communicate(timeout=SECONDS)
    told = (told + rest).decode(errors="replace")
    return Run(server.returncode, output, MARK in told, told)
