"""What a process costs: how every program of this folder measures the programs that it runs."""
import collections
import os
import subprocess
import time

TOP = os.path.dirname(os.path.dirname(os.path.abspath(__file__)))
PROGRAM = f"{TOP}/crates/ccsl/out/ccsl"

# what it wrote, the processor's seconds, the seconds by the clock, the most memory that it held in megabytes, and its status
Run = collections.namedtuple("Run", ["said", "processor", "clock", "memory", "status"])


def measured(words, source=None, target=None):
    """One run of a process, from a file and into one where they are named."""
    begin = time.time()
    with open(source or os.devnull, "rb") as read, open(target or os.devnull, "wb") as written:
        process = subprocess.Popen([str(word) for word in words], stdin=read, stdout=written if target else subprocess.PIPE,
                                   stderr=subprocess.DEVNULL)
        said = b"" if target else process.stdout.read()
        _, status, used = os.wait4(process.pid, 0)
    process.returncode = os.waitstatus_to_exitcode(status)
    return Run(said.decode().strip(), used.ru_utime + used.ru_stime, time.time() - begin, used.ru_maxrss / 1000, process.returncode)


def best(words, times, source=None, target=None):
    """Of so many runs the one with the least time of the processor."""
    return min((measured(words, source, target) for _ in range(times)), key=lambda run: run.processor)


def built(crate):
    """The program of a crate."""
    return f"{TOP}/crates/{crate}/out/{crate}"


def filled(head, member, tail, size=1 << 20):
    """A text of at most so many bytes with as many members as fit."""
    parts, left, number = [head], size - len(head) - len(tail), 0
    while len(part := member(number)) <= left:
        parts.append(part)
        left -= len(part)
        number += 1
    return "".join(parts) + tail
