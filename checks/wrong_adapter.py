#!/usr/bin/env python3
"""An adapter that is wrong on purpose, to try vectors/run.py: it speaks the command line of docs/FORMATS.md, as far as the vectors use it,
and answers by the slow programs, one of which has a wrong reading.

Arguments: the name of a wrong reading (lib/wrong_readings.py), `right`, or `text KIND` for a text that is right but for its form, and then
a command with its arguments. What lies at the archive's path is the slow office, written by Python's module `pickle`."""
import pickle
import re
import socket
import sys
import time

from lib import changes, vector_changes, wrong_readings
from slow import slow_office, slow_reader, slow_server

HOST = "127.0.0.1"


def load(path: str) -> slow_office.Office:
    """The office at a path."""
    with open(path, "rb") as file:
        return pickle.load(file)


def store(path: str, office: slow_office.Office) -> None:
    """Writes the office at a path."""
    with open(path, "wb") as file:
        pickle.dump(office, file)


def whole_request(connection: socket.socket) -> bytes:
    """All bytes of a request, up to the end of what the client sends."""
    found = b""
    while piece := connection.recv(65_536):
        found += piece
    return found


def serve(path: str, key: str, port: str, count: str) -> tuple[bytes, int]:
    """Answers a number of connections, one after the other."""
    server = slow_server.Server(load(path), key)
    with socket.create_server((HOST, int(port))) as listening:
        for _ in range(int(count)):
            connection, _ = listening.accept()
            with connection:
                connection.sendall(server.replies(whole_request(connection))[0])
    return b"", 0


def encoded(told: tuple[str, int]) -> tuple[bytes, int]:
    """What is printed, as bytes, and the status."""
    return told[0].encode(), told[1]


def of_archive(command: str, path: str, others: list[str]) -> tuple[bytes, int]:
    """What a command at an archive prints, and its status."""
    if command == "init":
        store(path, slow_office.Office())
        return b"created\n", 0
    if command == "serve":
        return serve(path, *others)
    office = load(path)
    is_given = command in ("register", "import", "enter")
    told = office.answer([command, *others], sys.stdin.buffer.read() if is_given else b"")
    store(path, office)
    return told


def answer(command: str, others: list[str]) -> tuple[bytes, int]:
    """What a command prints, and its status."""
    if command == "dump":
        return encoded(slow_reader.dump(sys.stdin.buffer.read()))
    if command == "holder":
        return encoded(slow_reader.holder(sys.stdin.buffer.read()))
    if command == "card":
        return encoded(slow_reader.card(sys.stdin.buffer.read(), others[0]))
    return of_archive(command, others[0], others[1:])


READINGS = ("dump", "breaches", "owed", "stretches", "debts", "entries")
# By the kind of a wrong text: a pattern, and what is put in its place.
WRONG_TEXTS = {
    "line": (rb"\Z", b"nothing else\n"), "twice": (rb"\A(.*\n)", rb"\1\1"), "late": (rb" open\n", b" late\n"),
    "monday": (rb"FROM (.{9}).", rb"FROM \g<1>9"), "number": (rb"(?m)^1 ", b"2 "),
}


def wrong_text(kind: str, command: str, told: bytes, status: int) -> tuple[bytes, int]:
    """What a command prints, wrong in a way, and its status."""
    if command not in READINGS:
        return told, status
    if kind == "hang":
        time.sleep(60)
    if kind == "status":
        return told, 3
    return re.sub(*WRONG_TEXTS[kind], told, count=1), status


def main() -> int:
    """Answers a command by the wrong reading, and returns the status."""
    name, command, *others = sys.argv[1:]
    if name.startswith("text "):
        told, status = wrong_text(name.removeprefix("text "), command, *answer(command, others))
        sys.stdout.buffer.write(told)
        return status
    if name != "right":
        wrong = wrong_readings.wrong_named(name)
        changes.plant(vector_changes.MODULES[wrong.program], wrong.pairs)
    told, status = answer(command, others)
    sys.stdout.buffer.write(told)
    return status


if __name__ == "__main__":
    sys.exit(main())
