#!/usr/bin/env python3
"""Starts the program as a server on an archive in a file with each of the allocations of a request refused in turn, and looks for a reply
or a table that changes.

A server whose allocation is refused replies as without, or that it's unavailable (503); or it has ended before it took its port, where
the command line or the opening was out of memory. In the last two the archive is as before, and in the first as after the request. A
request without a head or without one key is replied to as without. Of the allocations of an opening some are refused. Arguments: the
program and the compiler of C. The last line is 'N passed, M failed'."""
import itertools
import multiprocessing
import socket
import sys
import tempfile
from collections import namedtuple

from lib import counting, failing, programs
from lib.failing import ANNA, CARL, CONTRADICT, SIGNED, WITH_DAY, WITH_HOURS
from lib.office_rows import DAY, OTHER_DAY
from lib.server import DRIVER, HOST, OFFICE, SECONDS, UNAVAILABLE, Serving, asking, posting

PROCESSES = 4  # each waits for its program most of the time
STEP = 97  # one in 97 of the allocations of an opening is refused
Case = namedtuple("Case", "before request")

CASES = {
    "a first driver": Case([], posting("/drivers", OFFICE, ANNA[1])),
    "a first download": Case([ANNA], posting("/cards/both", OFFICE, DAY)),
    "a repeated download": Case(WITH_DAY, posting("/cards/both", OFFICE, DAY)),
    "a download by the driver": Case([ANNA], posting("/me/cards/both", DRIVER, DAY)),
    "a contradiction": Case(WITH_DAY, posting("/cards/both", OFFICE, OTHER_DAY)),
    "signed hours": Case(WITH_DAY, posting("/drivers/17/entries", OFFICE, SIGNED[1])),
    "hours in another order": Case(WITH_DAY, posting("/drivers/17/entries", OFFICE, CONTRADICT[1])),
    "a withdrawal": Case(WITH_HOURS, asking("POST /drivers/17/withdraw/2", OFFICE)),
    "a withdrawal of two": Case(WITH_HOURS, asking("POST /drivers/17/withdraw/1/2", OFFICE)),
    "another base": Case(WITH_DAY, asking("POST /drivers/17/base/2024-03-11", OFFICE)),
    "another name": Case(WITH_DAY, posting("/drivers/17/name", OFFICE, b"Anna Lind")),
    "spans": Case(WITH_HOURS, asking("GET /drivers/17/spans/2024-03", OFFICE)),
    "gaps": Case(WITH_HOURS, asking("GET /me/gaps/2024-03", DRIVER)),
    "a sheet": Case(WITH_HOURS, asking("GET /drivers/17/sheet/2024-03", OFFICE)),
    "breaches": Case(WITH_HOURS, asking("GET /me/breaches", DRIVER)),
    "what is owed": Case(WITH_HOURS, asking("GET /drivers/17/owed", OFFICE)),
    "entries": Case([*WITH_HOURS, SIGNED], asking("GET /me/entries", DRIVER)),
    "a file": Case(WITH_HOURS, asking("GET /me/files/1", DRIVER)),
    "all files": Case(WITH_HOURS, asking("GET /drivers/17/files", OFFICE)),
    "a handover": Case([*WITH_HOURS, SIGNED], asking("GET /me/handover/2024-03-01/2024-04-01", DRIVER)),
    "a form to a day": Case(WITH_HOURS, asking("GET /me/form/2024-03-05", DRIVER)),
    "evidence": Case(WITH_HOURS, asking("GET /me/why/2024-03", DRIVER)),
    "a forecast": Case(WITH_HOURS, asking("GET /me/ahead/2024-03-11/12:00", DRIVER)),
    "a chart": Case(WITH_HOURS, asking("GET /drivers/17/chart/2024-03", OFFICE)),
    "the forecast for all": Case([*WITH_HOURS, CARL], asking("GET /forecast/2024-03-11/12:00", OFFICE)),
    "how all stand": Case([*WITH_HOURS, CARL], asking("GET /standing/2024-03", OFFICE)),
    "an overview": Case(WITH_HOURS, asking("GET /overview/2024-03", OFFICE)),
    "a bad month": Case(WITH_HOURS, asking("GET /me/sheet/2024-13", DRIVER)),
    "an unknown path": Case(WITH_HOURS, asking("GET /nothing", DRIVER)),
    "a key of nobody": Case(WITH_HOURS, asking("GET /me/breaches", "anna-key-2")),
}

# What never is unavailable.
CERTAIN = {
    "no head": Case(WITH_HOURS, b"GET /me/breaches"),
    "no key": Case(WITH_HOURS, asking("GET /me/breaches", None)),
    "two keys": Case(WITH_HOURS, asking("GET /me/breaches", DRIVER, f"x-key: {OFFICE}")),
}

# What the program says where the command line, the opening, the port or the connection was out of memory: it has replied nothing.
GIVEN_UP = [*failing.GIVEN_UP, ("X2 device failed\n", 3)]


class Server:
    """The program as a server of one connection, on an archive to which some commands were given."""

    def __init__(self, program, compiler, folder, commands):
        self.office = failing.Office(program, folder, commands)
        self.compiler = compiler
        self.refuser = programs.built(compiler, folder)

    def told(self, request, number=0):
        """The reply to a request, with an allocation refused, and what the program printed, and its status; and whether the allocation was
        asked for."""
        refused = {"LD_PRELOAD": self.refuser, "REFUSED_ALLOCATION": str(number)} if number else {}
        with Serving(self.office.program, self.office.path, OFFICE, 1, refused) as serving:
            reply = serving.ask([request], waits=True)
            text, errors = serving.process.communicate(timeout=SECONDS)
        reply = b"" if serving.lost else reply
        return (reply, text.decode(), serving.process.returncode), b"refused\n" in errors

    def opening(self):
        """How many allocations the opening takes: where the port is taken, the program ends after it."""
        with socket.create_server((HOST, 0)) as other:
            port = str(other.getsockname()[1])
            return programs.allocations(self.compiler, [self.office.program, "serve", self.office.path, OFFICE, port, "1"], b"")

    def runs(self, request):
        """What comes, and the tables after it, with some allocations of the opening refused in turn and all after it."""
        opening = self.opening() - 20
        for number in itertools.chain(range(1, opening, STEP), itertools.count(max(1, opening))):
            self.office.restore()
            told, is_refused = self.told(request, number)
            if not is_refused:
                return
            yield number, told, self.office.tables()


def of_case(question):
    """The comparisons of a case, each of its allocations refused in turn."""
    program, compiler, name = question
    return list(comparisons_of(program, compiler, name))


def comparisons_of(program, compiler, name):
    """The comparisons of a request."""
    before, request = {**CASES, **CERTAIN}[name]
    with tempfile.TemporaryDirectory() as folder:
        server = Server(program, compiler, folder, before)
        as_before = server.office.tables()
        server.office.restore()
        wanted = server.told(request)[0]
        after = server.office.tables()
        unavailable = 0
        for number, told, tables in server.runs(request):
            is_unavailable = told == (UNAVAILABLE, "", 0) and name not in CERTAIN
            has_given_up = told[0] == b"" and told[1:] in GIVEN_UP
            unavailable += is_unavailable
            yield f"{name}, allocation {number} refused", told, told if is_unavailable or has_given_up else wanted
            yield f"{name}, allocation {number} refused: the tables", tables, as_before if is_unavailable or has_given_up else after
        yield f"{name}: whether some were unavailable", unavailable > 0, name not in CERTAIN


def comparisons(program: str, compiler: str) -> counting.Comparisons:
    with multiprocessing.Pool(PROCESSES) as pool:
        for found in pool.imap(of_case, [(program, compiler, name) for name in [*CASES, *CERTAIN]]):
            yield from found
        pool.close()
        pool.join()


if __name__ == "__main__":
    sys.exit(counting.count(comparisons(*sys.argv[1:])))
