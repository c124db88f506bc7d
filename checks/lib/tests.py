"""Programs of tests: which tests one has, and how each ended."""
import re
import subprocess
from collections.abc import Sequence


def names_of(program: str, modules: Sequence[str]) -> list[str]:
    """The names of the tests of some modules, each of which has some."""
    listed = subprocess.run([program, "--list"], capture_output=True, check=True, text=True).stdout
    found = re.findall(r"^((.+)::.+): test$", listed, re.MULTILINE)
    if {module for _, module in found}.isdisjoint(modules):
        raise RuntimeError(f"{program} has no tests of {modules}")
    return [name for name, module in found if module in modules]


def end_of(run: subprocess.CompletedProcess[bytes], faults: Sequence[str]) -> str | list[str]:
    """How a test ended: by a fault, by passing, or with what it said."""
    said = run.stderr.decode(errors="backslashreplace").splitlines()
    return next((line for line in said if line in faults), "passed" if run.returncode == 0 else said)
