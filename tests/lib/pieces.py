"""Pipes and sockets as standard streams, for tests/edges: what is moved at once, and that packets stay whole.

Each function yields what a case is called, what was found, and what docs/behaviour.md says of it.
"""
import hashlib
import os
import random
import re
import shutil
import signal
import socket
import subprocess
import threading
import time

from lib import outside
from lib.outside import LIMIT, SIZE, LONG, WHOLE

# What is moved at once: the bytes of seven packets, of 21 packets, and for how many a read asks at least.
SEVEN, LIMIT_TO_PIPE, LEAST_READ = 7 * SIZE, 21 * SIZE, 65_536

RUNS = 200
DATAGRAMS = 91_000

# How a run ends where a signal ends it.
ENDS = (signal.SIGTERM, signal.SIGINT, signal.SIGKILL)


# ---- a reader that stalls

def stalled(words, folder, drawn):
    """The pieces that the reader of a pipe got, as a sender of datagrams reads. It stalls, the run is stopped and goes on, and a
    signal ends it while the pipe is full."""
    pieces = []
    with outside.begun(words, folder) as running:
        end = running.stdout.fileno()
        for _ in range(drawn.randrange(1, 80)):
            pieces.append(os.read(end, SEVEN))
            if drawn.random() < 0.1:
                time.sleep(0.001)
                running.send_signal(signal.SIGSTOP)
                running.send_signal(signal.SIGCONT)
        time.sleep(0.002)
        running.send_signal(drawn.choice(ENDS))
        running.wait(timeout=LIMIT)
        while piece := os.read(end, SEVEN):
            pieces.append(piece)
    return pieces


def stalls(tsp, tsswitch, folder):
    """In no run a piece has a part of a packet, or another byte than was to come."""
    for name, words in (("tsp", [tsp, "-I", "file", "long.ts"]), ("tsswitch", [tsswitch, "-I", "file", "long.ts"])):
        parts, others = 0, 0
        for number in range(RUNS):
            pieces = stalled(words, folder, random.Random(number))
            parts += any(len(piece) % SIZE for piece in pieces)
            others += not LONG.startswith(b"".join(pieces))
        yield f"{name}, {RUNS} runs whose reader stalls, ended by a signal: parts of packets, other bytes", (parts, others), (0, 0)


def full_pipe(tsp, tsswitch, folder):
    """A pipe that does not wait: the write that it does not take is a fault, and nothing of it was taken."""
    for name, words in (("tsp", [tsp, "-I", "file", "long.ts"]), ("tsswitch", [tsswitch, "-I", "file", "long.ts"])):
        read, write = os.pipe()
        os.set_blocking(write, False)
        status, _, said = outside.run(words, folder, stdout=write)
        os.close(write)
        with open(read, "rb") as end:
            came = end.read()
        told = re.search(rb"end: write fault after (\d+) packets\n", said)
        yield f"{name} to a full pipe that does not wait", \
            (status, bool(told) and int(told[1]) * SIZE == len(came) > 0, LONG.startswith(came)), (4, True, True)


# ---- sockets

class Sender(threading.Thread):
    """Sends datagrams of seven packets to a socket, each other than all before, and then an empty one, which is the end."""

    def __init__(self, to, count):
        super().__init__(daemon=True)
        self.to, self.count, self.sent = to, count, hashlib.sha256()
        self.start()

    def run(self):
        row = bytearray(LONG[:SEVEN])
        for number in range(self.count):
            row[4:8] = row[-4:] = number.to_bytes(4, "big")
            self.sent.update(row)
            self.to.send(row)
        self.to.send(b"")


def received(end, running):
    """The datagrams that come to a socket until the run is over: how many bytes, how many that are not one to seven whole
    packets, and what they are together."""
    end.settimeout(0.2)
    size, faulty, came = 0, 0, hashlib.sha256()
    while True:
        is_over = running.poll() is not None
        try:
            piece = end.recv(1 << 18)
        except TimeoutError:
            if is_over:
                return size, faulty, came.hexdigest()
            continue
        size += len(piece)
        faulty += len(piece) % SIZE > 0 or not 0 < len(piece) <= SEVEN
        came.update(piece)


def pairs(count):
    """Pairs of sockets for datagrams, whose sender waits until there is room."""
    return (end for _ in range(count) for end in socket.socketpair(socket.AF_UNIX, socket.SOCK_DGRAM))


def through_sockets(tsp, _tsswitch, folder):
    """Datagrams come in and go out by standard streams that are sockets, and none is lost."""
    for chain in ("", "--max-input-packets 1", "-P skip 0 -P count --total"):
        there, stdin, stdout, here = pairs(2)
        with there, here, outside.begun([tsp, *chain.split()], folder, stdin=stdin, stdout=stdout) as running:
            stdin.close()
            stdout.close()
            sender = Sender(there, DATAGRAMS)
            found = received(here, running)
            sender.join(LIMIT)
            said = running.stderr.read()
        yield f"{DATAGRAMS} datagrams in and out, {chain or 'no plugin'}", \
            (*found, said.endswith(b"end: input after %d packets\n" % (7 * DATAGRAMS))), \
            (DATAGRAMS * SEVEN, 0, sender.sent.hexdigest(), True)


def to_sockets(_tsp, tsswitch, folder):
    """The same of tsswitch, whose inputs have names: files and a pipe."""
    stdout, here = pairs(1)
    words = [tsswitch, "-I", "file", "long.ts", "-I", "file", "/dev/stdin", "-I", "file", "long.ts"]
    with here, outside.begun(words, folder, stdin=subprocess.PIPE, stdout=stdout) as running:
        stdout.close()
        feeding = threading.Thread(target=outside.feed, args=(running.stdin, LONG))
        feeding.start()
        found = received(here, running)
        feeding.join(LIMIT)
        yield "tsswitch to a socket", (*found, running.returncode), (3 * len(LONG), 0, hashlib.sha256(3 * LONG).hexdigest(), 0)


# ---- calls of the system

def calls(words, folder, **more):
    """The sizes that a run asks the system for: those of reads of 0, and of writes to 1; None where no calls may be seen."""
    place = folder / "calls"
    place.mkdir(exist_ok=True)
    status, *_ = outside.run(["strace", "-ff", "-e", "trace=read,write", "-o", place / "of", *words], folder, **more)
    text = "".join(log.read_text(errors="replace") for log in place.iterdir())
    shutil.rmtree(place)
    reads, writes = ([int(size) for size in re.findall(rf"(?m)^{call}\({number}, .*, (\d+)\) +=", text)]
                     for call, number in (("read", 0), ("write", 1)))
    return (reads, writes) if status == 0 and writes else None


def sizes(tsp, _tsswitch, folder):
    """What is asked for at once, as strace shows it: of pipes, a regular file and a device."""
    if not shutil.which("strace"):
        print("note: sizes of reads and writes are not looked at, since strace is not installed")
        return
    for chain in ("", "--max-input-packets 1 -P filter --pid 256", "--buffer-packets 30 --max-flushed-packets 30"):
        found = calls([tsp, *chain.split()], folder, input=LONG)
        if found is None:
            print("note: sizes of reads and writes are not looked at, since strace may not trace here")
            return
        yield f"sizes of calls between pipes, {chain or 'no plugin'}", \
            (min(found[0]) >= LEAST_READ, max(found[1]) <= LIMIT_TO_PIPE, any(size % SIZE for size in found[1])), (True, True, False)
    with open(folder / "long.ts", "rb") as source, open(folder / "copy.ts", "wb") as copy:
        found = calls([tsp, "--max-input-packets", "5"], folder, stdin=source, stdout=copy)
    yield "sizes of calls between files", (max(found[0]), max(found[1])), (5 * SIZE, 5 * SIZE)
    with open("/dev/null", "wb") as none:
        found = calls([tsp, "-I", "file", "long.ts"], folder, stdout=none)
    yield "sizes of writes to a device", max(found[1]), LIMIT_TO_PIPE


CASES = [stalls, full_pipe, through_sockets, to_sockets, sizes]


def cases(tsp, tsswitch, folder):
    """All cases, in a folder with long.ts."""
    for case in CASES:
        # Pipes and sockets have no limits of their own.
        signal.alarm(2 * LIMIT)
        try:
            yield from case(tsp, tsswitch, folder)
        except (OSError, subprocess.TimeoutExpired) as fault:
            yield case.__name__, f"{type(fault).__name__}: {fault}", "an end"
        finally:
            signal.alarm(0)
