#!/usr/bin/env python3
"""Asks nginx with examples/nginx.conf before the program, as clients at addresses of their own: a driver who taps through months, guessers
of keys, and addresses of one IPv6 network. Looks who gets 429, what nginx keeps of a key, and what a new key and a service that is down
give.

Argument: the program. Where nginx or openssl isn't installed, nothing is tried. The last line is 'N passed, M failed'."""
import http.client
import os
import ssl
import sys
import tempfile
import time

from lib import counting, proxy
from lib.counting import Comparisons
from lib.files import read
from lib.office_rows import ANNA, HOLDER
from lib.programs import answer
from lib.server import OFFICE, Serving, free_port

KEY = "q7Rk2mZx9LwB4tYc8NdV5sHf3JgP6uEa"
OTHER = "A1s2D3f4G5h6J7k8L9q0W1e2R3t4Y5u6"
NEW = "Z9x8C7v6B5n4M3a2S1d0F9g8H7j6K5l4"

# nginx takes the client's address from a field.
NAMED = ("server_name tacho.example.org;", "server_name tacho.example.org; set_real_ip_from 127.0.0.1; real_ip_header x-from;")

# What the driver's page asks for at its opening, and for a month.
OPENING = 25
MONTHS, OF_A_MONTH = 12, 8


class Clients:
    """Clients of the proxy."""

    def __init__(self, port: int) -> None:
        self.port = port
        self.connection: http.client.HTTPSConnection | None = None
        self.asked = 0

    def ask(self, address: str, key: str, path: str = "/me/owed") -> int:
        """The status of the reply to a client with this address and key."""
        # nginx closes a connection after a thousand requests.
        self.asked += 1
        if self.connection is None or self.asked % 500 == 0:
            self.connection = http.client.HTTPSConnection("127.0.0.1", self.port, timeout=30, context=ssl._create_unverified_context())
        self.connection.request("GET", path, headers={"x-key": key, "x-from": address})
        reply = self.connection.getresponse()
        reply.read()
        return reply.status

    def guess(self, address: str, count: int = 60) -> list[int]:
        """The statuses of the replies to a client that guesses keys."""
        return [self.ask(address, f"guess-{self.asked}-{number}") for number in range(count)]


def people(clients: Clients) -> Comparisons:
    """A driver who opens the page and taps through a year, as fast as they can."""
    told = [clients.ask("192.0.2.1", KEY) for _ in range(OPENING)]
    for _ in range(MONTHS):
        time.sleep(0.2)
        told += [clients.ask("192.0.2.1", KEY) for _ in range(OF_A_MONTH)]
    yield "a year in a few seconds", sorted({*told}), [200]
    told = [clients.ask("192.0.2.2", KEY) for _ in range(600)]
    yield "who asks without end", (told[:150], sorted({*told})), (150 * [200], [200, 429])


def guessers(clients: Clients) -> Comparisons:
    """Guesses from one address, from one network, and from many."""
    yield "a key that is known there", clients.ask("192.0.2.3", KEY), 200
    told = clients.guess("192.0.2.3")
    yield "a guesser", (told[:20], told[-1], sum(status == 403 for status in told) < 40), (20 * [403], 429, True)
    yield "a right key beyond the limit", clients.ask("192.0.2.3", OTHER), 429
    yield "the key that is known", clients.ask("192.0.2.3", KEY), 200
    yield "the right key from elsewhere", clients.ask("192.0.2.4", OTHER), 200
    for name, one, same, other in (
            ("an IPv6 network", "2001:db8:0:1::1", "2001:db8:0:1:ffff::2", "2001:db8:0:2::1"),
            ("a network with the bytes of line ends", "2001:db8:a0a:d0d::1", "2001:db8:a0a:d0d:a0a::2", "2001:db8:a0a:d0e::1"),
            ("an IPv4 address in IPv6", "::ffff:198.51.100.1", "::ffff:198.51.100.1", "::ffff:198.51.100.2")):
        time.sleep(5)  # so that all clients together have some guesses left
        yield name, (clients.guess(one, 40)[-1], clients.ask(same, "guess"), clients.ask(other, "guess")), (429, 429, 403)
    told = [clients.ask(f"203.0.113.{number}", f"guess {number}") for number in range(250)]
    yield "guesses from many addresses", (told[0], 429 in told), (403, True)
    yield "a driver whose key is known, meanwhile", clients.ask("203.0.113.251", KEY), 200


def notes(clients: Clients, folder: str) -> Comparisons:
    """What nginx keeps of the keys that it knows."""
    clients.ask("192.0.2.5", KEY)
    files = [read(os.path.join(parent, name)) for parent, _, names in os.walk(folder) for name in names]
    yield "the notes", sum(KEY[-16:].encode() in file for file in files), 1
    yield "a key in the notes", [key for key in (KEY, OTHER) if any(key.encode() in file for file in files)], []
    yield "who may read them", os.stat(folder).st_mode & 0o777, 0o700


def ends(clients: Clients, serving: Serving) -> Comparisons:
    """Another key of a driver whose key is known, and a service that is down."""
    time.sleep(3)  # so that all clients together have some guesses left
    yield "the key before", clients.ask("192.0.2.6", KEY), 200
    office = http.client.HTTPConnection("127.0.0.1", serving.port, timeout=30)
    office.request("POST", "/drivers/17/key", NEW, {"x-key": OFFICE})
    yield "another key", office.getresponse().read(), b"key 17\n"
    office.close()
    yield "the key before, then", clients.ask("192.0.2.6", KEY), 403
    yield "the new one", clients.ask("192.0.2.6", NEW), 200
    serving.process.kill()
    serving.process.wait()
    yield "a service that is down", [clients.ask("192.0.2.7", key) for key in (NEW, "guess")], [502, 502]
    yield "a path outside", clients.ask("192.0.2.7", NEW, "/known"), 404


def comparisons(program: str) -> Comparisons:
    """All comparisons."""
    missing = proxy.missing()
    if missing:
        print(f"left out: all, since {' and '.join(missing)} isn't installed: apt install nginx-light openssl", flush=True)
        yield "the example is there", bool(proxy.example()), True
        return
    with tempfile.TemporaryDirectory() as folder:
        path = os.path.join(folder, "archive.db")
        anna = ANNA.replace(b"anna-key-1", KEY.encode())
        other = ANNA.replace(b"17,", b"18,").replace(HOLDER.encode(), f"{HOLDER[:-1]}9".encode()).replace(b"anna-key-1", OTHER.encode())
        yield "an archive", answer([program, "init", path], b""), ("created\n", 0)
        for number, given in ((17, anna), (18, other)):
            yield f"driver {number}", answer([program, "register", path], given), (f"registered {number}\n", 0)
        with Serving(os.path.abspath(program), path, OFFICE, 1_000_000, listens=True) as serving, \
                proxy.Proxy(os.path.join(folder, "proxy"), free_port(), serving.port, [NAMED]) as nginx:
            serving.wait()
            clients = Clients(nginx.port)
            last = time.monotonic() + 30
            while time.monotonic() < last:
                try:
                    clients.ask("192.0.2.9", KEY)
                    break
                except OSError:
                    clients.connection = None
                    time.sleep(0.1)
            yield from people(clients)
            yield from guessers(clients)
            yield from notes(clients, os.path.join(folder, "proxy", "keys"))
            yield from ends(clients, serving)


if __name__ == "__main__":
    sys.exit(counting.count(comparisons(*sys.argv[1:])))
