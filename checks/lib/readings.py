"""The folders of checks/readings: commands, their inputs, and what another program printed after them."""
import os
from collections.abc import Iterator

from lib import files

FOLDER = os.path.join(files.CHECKS, "readings")


def words_of(name: str) -> list[str]:
    """The arguments of a reading, by the name of the file that has what it prints: `chart-17-2024-03`, `ahead-17-2024-03-05-12:00`,
    `forecast-2024-03-05-12:00`."""
    word, _, rest = name.partition("-")
    if word in ("ahead", "forecast"):
        return [word, *filter(None, [rest[:-17]]), rest[-16:-6], rest[-5:]]
    return [word, *rest.split("-", 1 if word in ("chart", "why") else 0)]


def steps_of(case: str) -> Iterator[tuple[list[str], bytes, str]]:
    """The commands of a folder: their arguments, their input, and what they answer."""
    with open(os.path.join(FOLDER, case, "steps"), encoding="utf-8") as file:
        for line in file.read().splitlines():
            command, arrow, told = line.partition(" -> ")
            if arrow:
                words, _, name = command.partition(" < ")
                yield words.split(" "), files.read(os.path.join(FOLDER, case, name)) if name else b"", told
