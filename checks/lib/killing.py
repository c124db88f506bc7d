"""Ends a running program at a random moment of its work."""
import contextlib
import os
import random
import subprocess
import time

Running = subprocess.Popen[bytes]


def stamps(path: str) -> list[tuple[int, int]]:
    """The length of a file and of its log, and when each was changed."""
    found = []
    for name in [path, path + "-wal"]:
        with contextlib.suppress(FileNotFoundError):
            told = os.stat(name)
            found.append((told.st_size, told.st_mtime_ns))
    return found


def watch(running: Running, path: str, most: int) -> int:
    """Waits until a running program has changed a file or its log a number of times, or until it has ended, and counts them."""
    count, before = 0, stamps(path)
    while count < most and running.poll() is None:
        now = stamps(path)
        count, before = count + (now != before), now
    return count


def wait(running: Running, path: str, chance: random.Random, seconds: float, count: int) -> None:
    """Waits for a random moment of a running program: of the time that it takes, or after one of the changes of its files."""
    if chance.random() < 0.5:
        time.sleep(chance.uniform(0, 1.2 * seconds))
    else:
        watch(running, path, chance.randrange(1, count + 2))


def end(running: Running) -> None:
    """Ends a program at once, and waits for that."""
    running.kill()
    running.wait()
