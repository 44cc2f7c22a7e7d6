"""What goes wrong outside of the programs, for tests/edges: disks, pipes, files, rights and limits, on the real system.

Each function yields what a case is called, what was found, and what docs/behaviour.md says of it. No run may take longer than
LIMIT seconds, and no function longer than two such.
"""
import contextlib
import os
import pathlib
import re
import resource
import shutil
import signal
import socket
import subprocess
import threading
import time

from lib import programs
from lib import tasks

SIZE = 188
LIMIT = 60

TEXT = programs.TOP / "examples" / "pat.json"


def packet(pid, counter):
    return bytes([0x47, pid >> 8, pid & 0xFF, 0x10 | counter % 16]) + bytes((counter + k) % 256 for k in range(184))


# More than a pipe and a buffer of 100 packets hold together, several times.
LONG = b"".join(packet(256, n) for n in range(3000))
WHOLE = b"end: input after 3000 packets\n"
HELD = ["--buffer-packets", "100", "-I", "file", "held.ts"]


def run(words, folder, **more):
    """The exit number of a run, and what it said on both standard streams; None of one that goes elsewhere."""
    streams = {"stdout": subprocess.PIPE, "stderr": subprocess.PIPE, **more}
    done = subprocess.run(words, cwd=folder, check=False, timeout=LIMIT, **streams)
    return done.returncode, done.stdout, done.stderr


@contextlib.contextmanager
def begun(words, folder, **more):
    """A run that goes on beside the caller, and ends with it."""
    streams = {"stdout": subprocess.PIPE, "stderr": subprocess.PIPE, **more}
    with subprocess.Popen(words, cwd=folder, bufsize=0, **streams) as running:
        try:
            yield running
        finally:
            running.kill()


def ended(running):
    """The same as of `run`, of a run that was begun."""
    said, complained = running.communicate(timeout=LIMIT)
    return running.returncode, said, complained


def shown(value):
    """A value as text, but of long rows of bytes their number and their ends."""
    if isinstance(value, tuple):
        return "(" + ", ".join(map(shown, value)) + ")"
    if isinstance(value, bytes) and len(value) > 500:
        return f"{len(value)} bytes {value[:8]} .. {value[-8:]}"
    return repr(value)


def content(path):
    return path.read_bytes() if path.exists() else None


# ---- disks and pipes

def full_disk(tsp, _tstabcomp, folder):
    (folder / "disk").mkdir()
    script = 'mount -t tmpfs -o size=65536 disk disk || exit 1; "$@"; status=$?; cp disk/out.ts copy.ts; exit $status'
    words = ["sh", "-c", script, "sh", tsp, "-I", "file", "long.ts", "-O", "file", "disk/out.ts"]
    alone = ["unshare", "--mount"] if os.geteuid() == 0 else ["unshare", "--user", "--map-root-user", "--mount"]
    found = run([*alone, *words], folder) if shutil.which("unshare") else None
    if (folder / "copy.ts").exists():
        yield "a full disk", (*found, content(folder / "copy.ts")), (4, after(348), b"", LONG[:65536])
    else:
        print("a full disk: no small disk may be mounted here; /dev/full and a limit on the size of files stand for it")


def after(packets):
    return b"end: write fault after %d packets\n" % packets


def limited_size(tsp, _tstabcomp, folder):
    """A limit on the size of files, which ends a program by a signal, but where that is ignored."""
    for name, action, wanted in [("an ignored limit", signal.SIG_IGN, (4, after(265), b"")),
                                 ("a limit", signal.SIG_DFL, (-signal.SIGXFSZ, b"", b""))]:
        def prepare(action=action):
            resource.setrlimit(resource.RLIMIT_CORE, (0, 0))
            resource.setrlimit(resource.RLIMIT_FSIZE, (50_000, 50_000))
            signal.signal(signal.SIGXFSZ, action)
        found = run([tsp, "-I", "file", "long.ts", "-O", "file", "short.ts"], folder, preexec_fn=prepare)
        yield f"{name} on the size of files", (*found, content(folder / "short.ts")), (*wanted, LONG[:50_000])


def left_pipe(tsp, _tstabcomp, folder):
    """The reader of a pipe takes ten packets and goes."""
    with begun([tsp, "-I", "null", "100000000"], folder) as running:
        for _ in range(10):
            running.stdout.read(SIZE)
        running.stdout.close()
        said = running.stderr.read()
        status = running.wait(timeout=LIMIT)
    told = re.fullmatch(rb"end: write fault after (\d+) packets\n", said)
    yield "a pipe whose reader goes", (status, bool(told) and int(told[1]) >= 10), (4, True)


def late_pipes(tsp, tstabcomp, folder):
    """Named pipes whose other end is opened by somebody a while after the run began."""
    for name in ("late.in", "late.out", "late.json"):
        os.mkfifo(folder / name)
    with begun([tsp, "-I", "file", "late.in", "-O", "file", "came.ts"], folder) as running:
        time.sleep(0.3)
        (folder / "late.in").write_bytes(LONG)
        yield "a writer that comes late", (*ended(running), content(folder / "came.ts")), (0, WHOLE, b"", LONG)
    with begun([tsp, "-I", "file", "late.in", "-O", "file", "came.ts"], folder) as running:
        time.sleep(0.3)
        (folder / "late.in").write_bytes(b"")
        yield "a writer that comes late with nothing", (*ended(running), content(folder / "came.ts")), \
            (0, b"end: input after 0 packets\n", b"", b"")
    with begun([tsp, "-I", "file", "long.ts", "-O", "file", "late.out"], folder) as running:
        time.sleep(0.3)
        read = (folder / "late.out").read_bytes()
        yield "a reader that comes late", (*ended(running), read), (0, WHOLE, b"", LONG)
    run([tstabcomp, "--compile", TEXT, "at-once.bin"], folder)
    with begun([tstabcomp, "--compile", "late.json", "late.bin"], folder) as running:
        time.sleep(0.3)
        (folder / "late.json").write_bytes(TEXT.read_bytes())
        yield "a text of tables that comes late", (*ended(running), content(folder / "late.bin")), \
            (0, b"", b"", content(folder / "at-once.bin"))


def single_bytes(tsp, tstabcomp, folder):
    """Reads that bring one byte each: those of a socket that parts what was sent."""
    for chain in ("", "--buffer-packets 1 -P filter --pid 256 -P count"):
        found = fed_singly([tsp, *chain.split(), "-O", "file", "singly.ts"], folder, LONG[:1880])
        lines = b"[2] count: pid 256 packets 10\n[2] count: total 10\n" if chain else b""
        yield f"one byte a read, {chain or 'no plugin'}", (*found, content(folder / "singly.ts")), \
            (0, lines + b"end: input after 10 packets\n", b"", LONG[:1880])
    found = fed_singly([tstabcomp, "--compile", "", "singly.bin"], folder, TEXT.read_bytes())
    run([tstabcomp, "--compile", TEXT, "at-once.bin"], folder)
    yield "one byte a read of a text of tables", (*found, content(folder / "singly.bin")), \
        (0, b"", b"", content(folder / "at-once.bin"))


def fed_singly(words, folder, data):
    here, there = socket.socketpair(socket.AF_UNIX, socket.SOCK_SEQPACKET)
    with here, begun(words, folder, stdin=there) as running:
        there.close()
        for byte in data:
            here.send(bytes([byte]))
        here.close()
        return ended(running)


# ---- files

def changed_files(tsp, _tstabcomp, folder):
    """A file changes while its run waits for the reader of a pipe, far before the place of the change."""
    held = folder / "held.ts"
    for name, change, wanted in [
            ("a file that is cut behind what was read", lambda: os.truncate(held, 1000 * SIZE + 50),
             (0, LONG[:1000 * SIZE], b"end: input after 1000 packets, 50 bytes left out\n")),
            ("a file that grows", lambda: extend(held, LONG), (0, LONG * 2, b"end: input after 6000 packets\n")),
            ("a file that loses its sync byte", lambda: put(held, 1000 * SIZE, b"F"),
             (5, LONG[:1000 * SIZE], b"end: lost sync at input packet 1000 after 1000 packets\n")),
            ("a file that is removed", held.unlink, (0, LONG, WHOLE))]:
        yield name, changed(tsp, folder, change), wanted
    status, written, said = changed(tsp, folder, lambda: os.truncate(held, 10 * SIZE))
    told = re.fullmatch(rb"end: input after (\d+) packets(, \d+ bytes left out)?\n", said)
    is_so = bool(told) and 10 <= int(told[1]) < 1000 and written == LONG[:int(told[1]) * SIZE]
    yield "a file that is cut before what was read", (status, is_so), (0, True)


def changed(tsp, folder, change):
    """A run during which a file changes: exit number, what it wrote, and its report."""
    (folder / "held.ts").write_bytes(LONG)
    with begun([tsp, *HELD], folder) as running:
        first = running.stdout.read(SIZE)
        change()
        status, rest, said = ended(running)
    return status, first + rest, said


def extend(path, data):
    with open(path, "ab") as file:
        file.write(data)


def put(path, place, data):
    with open(path, "r+b") as file:
        file.seek(place)
        file.write(data)


def folders(tsp, tstabcomp, folder):
    """A folder where a file is wanted; one as the input is among the cases of tests/edges."""
    yield "a folder as the output", run([tsp, "-I", "null", "1", "-O", "file", "."], folder), (4, b"tsp: cannot open output\n", b"")
    yield "a file as a folder", run([tsp, "-I", "file", "long.ts/a.ts", "-O", "drop"], folder), \
        (3, b"tsp: cannot open input\n", b"")
    yield "a folder as a file of tables", \
        run([tsp, "-I", "null", "1", "-P", "inject", ".", "--pid", "0", "--replace", "-O", "drop"], folder), \
        (3, b"tsp: cannot read table file of plugin 1\n", b"")
    yield "a folder as a text of tables", run([tstabcomp, "--compile", ".", "no.bin"], folder), \
        (3, b"tstabcomp: cannot read\n", b"")
    yield "a folder as the compiler's output", run([tstabcomp, "--compile", TEXT, "."], folder), \
        (4, b"tstabcomp: cannot write\n", b"")


def rights(tsp, tstabcomp, folder):
    """What the program's user may not do. Root may all, so the programs have a user of their own there."""
    shutil.copy(TEXT, folder / "text.json")
    for name, mode in (("secret.ts", 0), ("secret.json", 0), ("kept.ts", 0o444)):
        (folder / name).write_bytes(LONG[:SIZE])
        (folder / name).chmod(mode)
    (folder / "shut").mkdir(mode=0o555)
    for name, words, wanted in [
            ("no right to read the input", [tsp, "-I", "file", "secret.ts", "-O", "drop"], (3, b"tsp: cannot open input\n")),
            ("no right to write the output", [tsp, "-I", "null", "1", "-O", "file", "kept.ts"], (4, b"tsp: cannot open output\n")),
            ("no right to make the output", [tsp, "-I", "null", "1", "-O", "file", "shut/a.ts"], (4, b"tsp: cannot open output\n")),
            ("no right to read a file of tables",
             [tsp, "-I", "null", "1", "-P", "inject", "secret.json", "--pid", "0", "--replace", "-O", "drop"],
             (3, b"tsp: cannot read table file of plugin 1\n")),
            ("no right to read a text of tables", [tstabcomp, "--compile", "secret.json", "no.bin"],
             (3, b"tstabcomp: cannot read\n")),
            ("no right to write sections", [tstabcomp, "--compile", "text.json", "kept.ts"], (4, b"tstabcomp: cannot write\n"))]:
        yield name, run(words, folder, preexec_fn=tasks.become_nobody), (*wanted, b"")
    yield "what may not be written", content(folder / "kept.ts"), LONG[:SIZE]


def compiler_outputs(_tsp, tstabcomp, folder):
    """Outputs of the compiler that take nothing."""
    line = b"tstabcomp: cannot write\n"
    yield "a full device for sections", run([tstabcomp, "--compile", TEXT, "/dev/full"], folder), (4, line, b"")
    read, write = os.pipe()
    os.close(read)
    found = run([tstabcomp, "--compile", TEXT], folder, stdout=write)
    os.close(write)
    yield "a closed pipe for sections", found, (4, None, line)


# ---- limits

def limit(kind, most):
    """What a child does that may have no more of this kind."""
    return lambda: resource.setrlimit(kind, (most, most))


def limited_files(tsp, _tstabcomp, folder):
    """How many files a program may have open, its three standard streams among them."""
    words = [tsp, "-I", "file", "long.ts", "-O", "file", "few.ts"]
    for most, wanted in [(4, (4, b"tsp: cannot open output\n", b"")), (5, (0, WHOLE, b""))]:
        yield f"a limit of {most} open files", run(words, folder, preexec_fn=limit(resource.RLIMIT_NOFILE, most)), wanted
    # The limit comes once the program waits for a file of tables: before, nothing could be loaded.
    words = [tsp, "-I", "file", "long.ts", "-P", "inject", "", "--pid", "0", "--replace", "-O", "file", "few.ts"]
    with begun(words, folder, stdin=subprocess.PIPE) as running:
        time.sleep(0.3)
        resource.prlimit(running.pid, resource.RLIMIT_NOFILE, (3, 3))
        yield "a limit of 3 open files", ended(running), (3, b"tsp: cannot open input\n", b"")


def limited_memory(tsp, _tstabcomp, folder):
    """From almost no memory on, twice as much each time: a run is as without the limit, or ends as one that ran out of memory."""
    words = [tsp, "-I", "file", "long.ts", *"-P count -P continuity -P analyze -P tables -O file scant.ts".split()]
    whole = (*run(words, folder), LONG)
    statuses, faults = set(), []
    for most in (1 << n for n in range(18, 28)):
        (folder / "scant.ts").unlink(missing_ok=True)
        found = (*run(words, folder, preexec_fn=limit(resource.RLIMIT_DATA, most)), content(folder / "scant.ts"))
        statuses.add(found[0])
        if found != whole and not is_without_memory(*found):
            faults.append((most, found[:3]))
    yield "limits on memory", (statuses, faults), ({0, 1}, [])


def is_without_memory(status, said, complained, written):
    """Whether a run ended as one that ran out of memory, with the packets that it wrote."""
    if status != 1 or complained:
        return False
    last = said.splitlines()[-1] if said else b""
    told = re.fullmatch(rb"end: no memory after (\d+) packets", last)
    if told:
        return written == LONG[:int(told[1]) * SIZE]
    return not said and LONG.startswith(written or b"") and len(written or b"") % SIZE == 0


def no_threads(tsp, _tstabcomp, folder):
    """A user who may start no thread; tests/threads-refused has more of them."""
    words = [tsp, *"-P skip 5 -P count -P analyze -I file".split()]
    there = os.sched_getaffinity(0)
    with open(folder / "long.ts", "rb") as one, open(folder / "long.ts", "rb") as two:
        found = run(words, folder, stdin=one, preexec_fn=tasks.held_to(there, 1))
        yield "a user who may start no thread", found, run(words, folder, stdin=two)


# ---- stops

def stops(tsp, _tstabcomp, folder):
    """A run that is stopped and goes on again, by signals."""
    words = [tsp, *"-I null 3000000 -P skip 1 -P count --total -O drop".split()]
    with begun(words, folder) as running:
        for _ in range(20):
            running.send_signal(signal.SIGSTOP)
            time.sleep(0.01)
            running.send_signal(signal.SIGCONT)
            time.sleep(0.01)
        yield "a run that is stopped twenty times", ended(running), \
            (0, b"[2] count: total 2999999\nend: input after 3000000 packets\n", b"")
    with begun([tsp, "-P", "filter", "--pid", "256", "-O", "file", "stopped.ts"], folder, stdin=subprocess.PIPE) as running:
        running.stdin.write(LONG[:1000])
        running.send_signal(signal.SIGSTOP)
        # More than the pipe takes while nobody reads.
        feeding = threading.Thread(target=feed, args=(running.stdin, LONG[1000:]))
        feeding.start()
        time.sleep(0.3)
        running.send_signal(signal.SIGCONT)
        feeding.join(LIMIT)
        status = running.wait(timeout=LIMIT)
        found = status, running.stdout.read(), running.stderr.read(), content(folder / "stopped.ts")
        yield "a run that is stopped in the middle of a packet", found, (0, WHOLE, b"", LONG)


def feed(pipe, data):
    with pipe:
        while data:
            data = data[pipe.write(data):]


CASES = [full_disk, limited_size, left_pipe, late_pipes, single_bytes, changed_files, folders, rights, compiler_outputs,
         limited_files, limited_memory, no_threads, stops]


def give_up(_number, _frame):
    raise TimeoutError("no end was waited for any longer")


def cases(programs_found, folder):
    """All cases, in a folder that each user may read, with copies of the programs that each user may run."""
    folder = pathlib.Path(folder)
    folder.chmod(0o755)
    copies = []
    for program in programs_found:
        copies.append(pathlib.Path(shutil.copy(program, folder)))
        copies[-1].chmod(0o755)
    (folder / "long.ts").write_bytes(LONG)
    signal.signal(signal.SIGALRM, give_up)
    for case in CASES:
        # Pipes and sockets have no limits of their own.
        signal.alarm(2 * LIMIT)
        try:
            yield from case(*copies, folder)
        except (OSError, subprocess.TimeoutExpired) as fault:
            yield case.__name__, f"{type(fault).__name__}: {fault}", "an end"
        finally:
            signal.alarm(0)
