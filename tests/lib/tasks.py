"""Chains that wait over a pipe, how many threads they have then, and limits on the threads of a user."""
import os
import resource
import select
import subprocess
import time

# The longest that a chain may take to pass a packet or to end, and that a thread which has ended may still be seen, in seconds.
LIMIT, LINGER = 60, 2

PACKET = bytes([0x47, 0x01, 0x00, 0x10]) + bytes(range(184))

# A user who has no process, since root is exempt from limits and may do all. Each script has one of its own: a limit on
# tasks counts those of the user, whoever started them.
NOBODY = 54_321 + os.getpid()


def become_nobody():
    """What a child of root does to be an ordinary user; others stay who they are."""
    if os.geteuid() == 0:
        os.setgroups([])
        os.setgid(NOBODY)
        os.setuid(NOBODY)


def held_to(processors, tasks=None):
    """What a child does before it becomes the program: it keeps to these processors, and its user may have so many tasks."""
    def prepare():
        os.sched_setaffinity(0, processors)
        if tasks is not None:
            resource.setrlimit(resource.RLIMIT_NPROC, (tasks, tasks))
            become_nobody()
    return prepare


def count(pid):
    """How many threads a process has."""
    return len(os.listdir(f"/proc/{pid}/task"))


def passed(running):
    """Sends packets into a chain, each a while after the last one, until one has come out, and how many it took. Chains with a
    thread for each stage pass the first one at once; where one thread has all stages, it may wait in the next read by then."""
    for number in range(1, LIMIT):
        os.write(running.stdin.fileno(), PACKET)
        if select.select([running.stdout], [], [], 1)[0]:
            return number
    return 0


def counted(program, plugins, processors, wanted, tasks=None, general=()):
    """What is wrong with a chain of so many plugins, with these general options: once a packet has passed, it has to have as many
    threads as are wanted, and then to pass all packets and to end well. None where nothing is."""
    words = [program, *general, *["-P", "skip", "0"] * plugins, "-I", "file", "-O", "file"]
    with subprocess.Popen(words, bufsize=0, stdin=subprocess.PIPE, stdout=subprocess.PIPE, stderr=subprocess.DEVNULL,
                          preexec_fn=held_to(processors, tasks)) as running:
        try:
            sent = passed(running)
            end = time.monotonic() + LINGER
            while count(running.pid) != wanted and time.monotonic() < end:
                time.sleep(0.01)
            found = count(running.pid)
            out = running.communicate(timeout=LIMIT)[0]
        except (OSError, subprocess.TimeoutExpired) as fault:
            return f"{type(fault).__name__}: {fault}"
        finally:
            running.kill()
    if not sent or out != sent * PACKET or running.returncode:
        return f"of {sent} packets {len(out)} bytes came out, status {running.returncode}"
    return None if found == wanted else f"{found} threads in place of {wanted}"
