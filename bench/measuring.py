"""Measures processor times, of user and system together, and counts instructions with callgrind if valgrind is installed.

Several programs, called sides, do the same works. They are measured in rounds in which they take turns, so that other load on the machine
affects all of them alike. A ratio is the median of the rounds' ratios, and is printed next to the least time of each side. Instructions are
counted once, because they hardly change."""
import os
import re
import resource
import shutil
import subprocess
import sys
from collections.abc import Callable, Hashable, Mapping, Sequence
from statistics import median
from typing import Any, TypeVar

Key = TypeVar("Key", bound=Hashable)
Number = TypeVar("Number", int, float)
Taken = Mapping[str, float]  # what each work of a side took
Cost = Callable[[Taken], float]
Programs = Mapping[str, Sequence[str]]  # the command that begins each side
Works = Mapping[str, tuple[Sequence[str], str]]  # the arguments of each work, and the path of its input

HAS_VALGRIND = shutil.which("valgrind") is not None
CALLGRIND = ["valgrind", "--tool=callgrind", "--callgrind-out-file=/dev/null"]
NO_VALGRIND = "valgrind isn't installed, so no instructions are counted"


def less(work: str, other: str, count: float = 1) -> Cost:
    """The cost of a work without that of another one, divided by a count."""
    return lambda taken: (taken[work] - taken[other]) / count


def only(work: str) -> Cost:
    """The cost of a work."""
    return lambda taken: taken[work]


def order_of(names: list[Key], number: int) -> list[Key]:
    """The order of names in a round. Over the rounds each name comes at each place, and both before and after each other one."""
    place = number // 2 % len(names)
    order = names[place:] + names[:place]
    return order[::-1] if number % 2 else order


class Rounds:
    """What the sides took in each round."""

    def __init__(self, sides: Mapping[Any, Callable[[], Taken]], count: int, check: Callable[[], object] | None = None) -> None:
        """Runs the rounds. The function of a side does its works, and returns what each took. `check` is called after each round."""
        self.rounds: list[dict[Any, Taken]] = []
        for number in range(count):
            self.rounds.append({name: sides[name]() for name in order_of(list(sides), number)})
            if check:
                check()

    def least(self, side: Hashable, cost: Cost) -> float:
        """The cost of a side, from the least that each of its works took."""
        rounds = [taken[side] for taken in self.rounds]
        return cost({work: min(taken[work] for taken in rounds) for work in rounds[0]})

    def ratio(self, side: Hashable, other: Hashable, cost: Cost, cost_of_other: Cost | None = None) -> float:
        """The median of the rounds' ratios of two sides. A round's ratio is infinite if the other side took nothing, as the system may
        report of a short work on a virtual machine."""
        costs = [(cost(taken[side]), (cost_of_other or cost)(taken[other])) for taken in self.rounds]
        return median(ours / theirs if theirs > 0 else float("inf") for ours, theirs in costs)


class Instructions:
    """The instructions of the product and of the other sides, for each work, if they can be counted."""

    def __init__(self, sides: Mapping[str, Callable[[], Taken]]) -> None:
        self.taken = {name: side() for name, side in sides.items()} if HAS_VALGRIND else None

    def columns(self, cost: Cost, scale: float = 1e6) -> str:
        """The columns of a table: the instructions of all sides, and the ratios of the product's to those of each other side. Empty without
        valgrind."""
        if not self.taken:
            return ""
        ours, *others = map(cost, self.taken.values())
        return "".join([*(f" {count / scale:10.3f}" for count in (ours, *others)), *(f" {ours / count:6.2f}" for count in others)])


def instruction_heads(unit: str = "M", others: Sequence[str] = ("plain",)) -> str:
    """The heads of the columns of `Instructions`. The head of a single ratio doesn't name the other side."""
    if not HAS_VALGRIND:
        return ""
    ratios = ["ratio"] if len(others) == 1 else ["/" + side for side in others]
    return "".join([*(f" {side + '/' + unit:>10}" for side in ("tacho", *others)), *(f" {ratio:>6}" for ratio in ratios)])


def print_instruction_note(unit: str) -> None:
    """Prints what the columns of `Instructions` are, or that there are none."""
    print(f"then {unit} of instructions, by callgrind, and their ratio" if HAS_VALGRIND else NO_VALGRIND)


def collected(errors: str) -> int:
    """The number of instructions that callgrind reports on standard error."""
    count = re.search(r"Collected : (\d+)", errors)
    if count is None:
        sys.exit(f"callgrind reported no instructions: {errors}")
    return int(count[1])


# Programs that take arguments and an input


def output_of(command: Sequence[str], given: str = os.devnull, **pipes: Any) -> tuple[bytes, int]:
    """What a command prints, and its status. Exits unless the command succeeded or was refused."""
    with open(given, "rb") as file:
        run = subprocess.run(command, stdin=file, **{"stdout": subprocess.PIPE, **pipes})
    if run.returncode not in (0, 1):
        sys.exit(f"{command} ended with status {run.returncode}")
    return run.stdout, run.returncode


def processor_time(command: Sequence[str], given: str = os.devnull, runs: int = 1) -> float:
    """The mean processor time of a run, in milliseconds."""
    before = resource.getrusage(resource.RUSAGE_CHILDREN)
    for _ in range(runs):
        output_of(command, given, stdout=subprocess.DEVNULL)
    after = resource.getrusage(resource.RUSAGE_CHILDREN)
    return (after.ru_utime + after.ru_stime - before.ru_utime - before.ru_stime) * 1000 / runs


def instructions(command: Sequence[str], given: str) -> int:
    """The number of instructions of a run."""
    with open(given, "rb") as file:
        return collected(subprocess.run([*CALLGRIND, *command], stdin=file, capture_output=True, text=True).stderr)


def sides_of(
    programs: Programs, works: Works, measure: Callable[[Sequence[str], str], Number],
) -> dict[str, Callable[[], dict[str, Number]]]:
    """For each program, a function that measures it at each work."""
    def side(program: Sequence[str]) -> Callable[[], dict[str, Number]]:
        return lambda: {work: measure([*program, *arguments], given) for work, (arguments, given) in works.items()}
    return {name: side(program) for name, program in programs.items()}


def check_answers(programs: Programs, works: Works) -> None:
    """Exits unless all programs print the same for each work."""
    for arguments, given in works.values():
        answers = {name: output_of([*program, *arguments], given) for name, program in programs.items()}
        if len(set(answers.values())) > 1:
            sys.exit(f"{programs} print different things for {arguments} and {given}: {answers}")


def times_of(programs: Programs, works: Works, rounds: int, runs: int = 1) -> Rounds:
    """The times of programs at works, in milliseconds. Exits unless they print the same for each work."""
    check_answers(programs, works)
    return Rounds(sides_of(programs, works, lambda command, given: processor_time(command, given, runs)), rounds)


def instructions_of(programs: Programs, works: Works) -> Instructions:
    """The instructions of programs at works."""
    return Instructions(sides_of(programs, works, instructions))
