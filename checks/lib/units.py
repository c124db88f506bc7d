"""The units of examples/, and what systemd does with one that runs its commands and ends, where there is no systemd."""
import os
import re
import subprocess
from collections.abc import Mapping

from lib.files import EXAMPLES

PLACE = "/usr/local/lib/tacho/backup"  # of examples/tacho-backup.sh, as the unit names it


def values(name: str, key: str) -> list[str]:
    """The values of a key in a unit, in order, as systemd reads them: lines are joined, and `%%` and `$$` are one character."""
    with open(os.path.join(EXAMPLES, name), encoding="utf-8") as file:
        text = file.read().replace("\\\n", " ").replace("%%", "%").replace("$$", "$")
    return re.findall(rf"^{key}=(.*)$", text, re.MULTILINE)


def variables(name: str) -> dict[str, str]:
    """The variables that a unit sets."""
    return dict(pair.split("=", 1) for line in values(name, "Environment") for pair in line.split(" "))


def play(name: str, places: Mapping[str, str], environment: Mapping[str, str], seconds: float = 60) -> int:
    """Runs a unit's commands in order until one fails, or takes so many seconds and is killed, and then those of ExecStopPost. Returns the
    status of that which failed, or 0. `places` are texts of the commands that are replaced."""
    def run(line: str) -> int:
        for old, new in places.items():
            line = line.replace(old, new)
        with subprocess.Popen(["sh", "-c", f"exec {line.lstrip('+')}"], env={**environment, **variables(name)}, stdin=subprocess.DEVNULL,
                              stdout=subprocess.DEVNULL, stderr=subprocess.DEVNULL, start_new_session=True) as process:
            try:
                return process.wait(seconds)
            except subprocess.TimeoutExpired:
                os.killpg(process.pid, 15)
                return process.wait()

    status = next(filter(None, map(run, values(name, "ExecStartPre") + values(name, "ExecStart"))), 0)
    for line in values(name, "ExecStopPost"):
        run(line)
    return status
