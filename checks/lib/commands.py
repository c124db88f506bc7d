"""The commands, by build/commands.csv, which is made from the program's own table."""
import csv
import os
from typing import NamedTuple

from lib.files import TOP


class Command(NamedTuple):
    """A command: its name, the names of its arguments (an optional one in brackets), what it reads from standard input, the method of its
    requests, and the paths of the office's and of a driver's. What it doesn't have is empty."""
    name: str
    arguments: list[str]
    input: str
    method: str
    office: list[str]
    driver: list[str]

    def counts(self) -> range:
        """How many arguments it takes."""
        return range(sum(not name.startswith("[") for name in self.arguments), len(self.arguments) + 1)


def all_commands() -> dict[str, Command]:
    """The commands by their names, in the order of the table."""
    with open(os.path.join(TOP, "build", "commands.csv"), encoding="utf-8", newline="") as file:
        rows = list(csv.DictReader(file))
    return {row["command"]: Command(row["command"], row["arguments"].split(), row["input"], row["method"], row["office"].split(),
                                    row["driver"].split()) for row in rows}


COMMANDS = all_commands()

# Those that have a request.
REQUESTS = {name: command for name, command in COMMANDS.items() if command.method}
