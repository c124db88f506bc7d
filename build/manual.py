#!/usr/bin/env python3
"""Prints the man page of the program, which is made from the table of commands in crates/tacho_desk/src/table.rt. To read it:

    build/manual.py > tacho.1 && man ./tacho.1

With the argument `commands` it prints the table as CSV, which build/commands.csv contains. checks/package.py compares the page with what
the program prints for `tacho help` and `tacho help COMMAND`, and that file with the table."""
import csv
import io
import os
import re
import subprocess
import sys
import time

TOP = os.path.dirname(os.path.dirname(os.path.realpath(__file__)))
TABLE = os.path.join(TOP, "crates", "tacho_desk", "src", "table.rt")
ARGUMENTS = os.path.join(TOP, "crates", "tacho_desk", "src", "argument.rt")
WANTS = os.path.join(TOP, "crates", "tacho_desk", "specs", "Wants.antt")
HELP = os.path.join(TOP, "crates", "tacho_cli", "src", "help.rt")

# The columns of the table as CSV. The input is what the usage names, and the paths are those of the office's requests and of a driver's.
# Several arguments or paths are separated by spaces, an optional argument is in brackets, and what a command doesn't have is empty.
COLUMNS = ["command", "arguments", "input", "method", "office", "driver"]

# A row of the table.
ROW = re.compile(r'''    Command \{
        name: "(?P<name>[a-z]+)",
        about: "(?P<about>[^"\\\\]+)",
        arguments: &\[(?P<arguments>.*)\],
        act: (?P<act>.*),
        paths: &\[(?P<paths>[^\]]*)\],
    \},
''')


# The exit statuses, as docs/FORMATS.md describes them.
STATUSES = {
    0: "The command has done what it should.",
    1: "The command has refused its input, and nothing has changed. The line that it prints begins with the code of the fault. Of check: the "
       "archive isn't sound.",
    2: "The arguments name no command. The usage goes to standard error, and nothing has changed.",
    3: "Memory, the archive's file or a device failed (M1, S12, X2). Whether the command has acted: see docs/OFFICE.md, "
       "'When something fails'.",
}

# The files that the program and its service use.
FILES = {
    "/var/lib/tacho/archive.db": "The archive of the service. Beside it is its log, archive.db-wal, which belongs to it.",
    "/etc/tacho/key": "The office's key, as the only line.",
    "tacho.service": "The unit of the service for systemd.",
    "tacho-backup.service, tacho-backup.timer": "The units that copy the archive to /var/backups/tacho each night.",
}


class Stop(Exception):
    """The reason why the man page can't be made."""


def text_of(path: str) -> str:
    """The text of a file."""
    with open(path, encoding="utf-8") as file:
        return file.read()


class Command:
    """A command: a row of the table, and whether it changes an archive."""

    def __init__(self, row: re.Match[str], names: dict[str, str], changes: bool, read: str) -> None:
        self.name = row["name"]
        self.about = row["about"]
        self.arguments = [names[argument] for argument in re.findall(r"\b[A-Z]\w+(?=,|$)", row["arguments"])]
        self.input = read
        paths = re.findall(r'"([^"]+)"', row["paths"])
        self.office = [path for path in paths if not path.startswith("/me/")]
        self.driver = [path for path in paths if path.startswith("/me/")]
        self.method = ("POST" if changes else "GET") if paths else ""

    def columns(self) -> list[str]:
        """The values of COLUMNS."""
        arguments = " ".join(self.arguments).lower()
        return [self.name, arguments, self.input, self.method, " ".join(self.office), " ".join(self.driver)]


def input_of(source: str, act: str) -> str:
    """What a command with this act reads from its input, by the text of help.rt, or an empty text."""
    body = re.search(r"^pub\(crate\) fn input_of\(.*?^\}", source, re.MULTILINE | re.DOTALL)
    if body is None:
        raise Stop(f"{HELP} has no function input_of")
    name = re.sub(r"\W+$", "", act).split("(")[-1]
    for names, read in re.findall(r'((?:[^=]|\n)*?)=>\s+Some\("([A-Z]+)"\)', body[0]):
        if re.search(rf"::{name}\b", names):
            return read
    return ""


def names_of(source: str) -> dict[str, str]:
    """The names of the arguments, by the text of argument.rt. Raises `Stop` if it doesn't name each of them."""
    kinds = re.search(r"^pub enum Argument \{\n(.*?)^\}", source, re.MULTILINE | re.DOTALL)
    names = dict(re.findall(r'Argument::(\w+) => "([A-Z\[\]]+)"', source))
    if kinds is None or re.findall(r"^    (\w+),$", kinds[1], re.MULTILINE) != list(names):
        raise Stop(f"{ARGUMENTS} doesn't name each argument")
    return names


def commands_of(source: str) -> list[Command]:
    """The table of commands in the text of table.rt. Raises `Stop` if a row of it has another form."""
    table = re.search(r"^static COMMANDS: \[Command; (\d+)\] = \[\n(.*?)^\];", source, re.MULTILINE | re.DOTALL)
    if table is None:
        raise Stop(f"{TABLE} has no table of commands")
    changing = [f"AtDesk({want})" for want in re.findall(r"^is_command (\w+) = true$", text_of(WANTS), re.MULTILINE)]
    helped = text_of(HELP)
    names = names_of(text_of(ARGUMENTS))
    commands = [Command(row, names, row["act"] in changing, input_of(helped, row["act"])) for row in ROW.finditer(table[2])]
    if len(commands) != int(table[1]):
        raise Stop(f"{len(commands)} of the {table[1]} rows of the table of commands in {TABLE} can be read")
    return commands


def table_csv() -> str:
    """The table of commands as CSV. Raises `Stop` if it can't be read."""
    written = io.StringIO()
    writer = csv.writer(written, lineterminator="\n")
    writer.writerow(COLUMNS)
    writer.writerows(command.columns() for command in commands_of(text_of(TABLE)))
    return written.getvalue()


def meanings_of(source: str, commands: list[Command]) -> list[tuple[str, str]]:
    """The descriptions of each argument, in the order in which the commands first name them, by the text of help.rt. Two kinds may have the
    same name. Raises `Stop` if it doesn't describe exactly these arguments."""
    body = re.search(r"^fn meaning_of\(.*?^\}", source, re.MULTILINE | re.DOTALL)
    named = list(dict.fromkeys(argument.strip("[]") for command in commands for argument in command.arguments))
    names = names_of(text_of(ARGUMENTS))
    arms = re.findall(r'Argument::(\w+)(?: \| Argument::\w+)* => (?:\{\s*)?"([^"\\]+)"', body[0] if body else "")
    found = [(names[argument].strip("[]"), meaning) for argument, meaning in arms]
    if {name for name, _ in found} != set(named):
        raise Stop(f"the descriptions of the arguments in {HELP} can't be read")
    return sorted(found, key=lambda item: named.index(item[0]))


def escaped(text: str) -> str:
    """A text as roff source that prints it as it is."""
    text = text.replace("\\", "\\e").replace("-", "\\-").replace("'", "\\(aq")
    return f"\\&{text}" if text.startswith(".") else text


def bold(text: str) -> str:
    """A text in bold, as roff source."""
    return f"\\fB{escaped(text)}\\fR"


def italic(text: str) -> str:
    """A text in italics, as roff source."""
    return f"\\fI{escaped(text)}\\fR"


def form_of(command: Command) -> str:
    """How a command is typed, as roff source."""
    words = [bold(command.name), *(italic(argument) for argument in command.arguments)]
    return " ".join([*words, *(["<", italic(command.input)] if command.input else [])])


def forms_of(command: Command) -> list[tuple[str, str]]:
    """How a command is typed, as roff source, each form with its description."""
    forms = [(form_of(command), command.about)]
    if command.name == "import":
        files = "Adds several card files, each by itself. A folder stands for its files with the endings .ddd, .c1b, .tgd and .esm"
        forms.append((f"{form_of(command).split(' < ')[0]} {italic('FILE')}...", files))
    return forms


def listed(items: list[tuple[str, str]]) -> list[str]:
    """A list of terms, which are roff source, and of their descriptions."""
    return [line for term, about in items for line in (".TP", term, escaped(about))]


def manual(version: str, seconds: int) -> str:
    """The man page of a version, with the day of a time in seconds since 1970. Raises `Stop` if it can't be made."""
    commands = commands_of(text_of(TABLE))
    day = time.strftime("%Y-%m-%d", time.gmtime(seconds))
    lines = [
        f".TH TACHO 1 {day} \"tacho {version}\"",
        # No word is divided at the end of a line, and lines aren't stretched: some words are typed.
        ".nh",
        ".ad l",
        ".SH NAME",
        "tacho \\- archive for the driver cards of digital tachographs",
        ".SH SYNOPSIS",
        f"{bold('tacho')} {italic('COMMAND')} [{italic('ARGUMENT')}...]",
        ".br",
        f"{bold('tacho help')} [{italic('COMMAND')}]",
        ".SH DESCRIPTION",
        escaped("Stores the hours that driver cards record, and checks them against most of the rules on driving and rest of Regulation "
                "(EC) No 561/2006, for a driver alone in the vehicle. The archive is a single file. A command opens it, reads its input, prints its answer, and ends; while a "
                "command has it open, any other gets 'S12 store failed'. All times are UTC."),
        ".PP",
        escaped("An answer goes to standard output, also the line of a fault, for which standard error gets a sentence that says what to do. "
                "An input has at most 262144 bytes, that of dump at most 65535."),
        ".SH COMMANDS",
        *listed([form for command in commands for form in forms_of(command)]),
        ".TP",
        f"{bold('help')} [{italic('COMMAND')}]",
        escaped("Prints these commands, or how a command is used"),
        ".SH ARGUMENTS",
        *listed([(italic(argument), about) for argument, about in meanings_of(text_of(HELP), commands)]),
        ".SH EXIT STATUS",
        *listed([(bold(str(status)), about) for status, about in STATUSES.items()]),
        ".SH FILES",
        *listed([(bold(name), about) for name, about in FILES.items()]),
        ".SH SEE ALSO",
        escaped("docs/OFFICE.md guides an office from week to week, docs/FORMATS.md describes each command, text and fault, and "
                "docs/RULES.md the rules. A Debian package has these files in /usr/share/doc/tacho."),
    ]
    return "\n".join(lines) + "\n"


def version_of_sources() -> str:
    """The version in the file VERSION. Raises `Stop` if it isn't three numbers."""
    with open(os.path.join(TOP, "VERSION"), encoding="utf-8") as file:
        version = file.read()
    if not re.fullmatch(r"\d+\.\d+\.\d+\n", version):
        raise Stop("VERSION doesn't have one line with a version such as 1.0.0")
    return version.strip()


def git(*words: str) -> str:
    """What git prints, also if the sources belong to another user. Raises `Stop` if it fails."""
    try:
        return subprocess.run(["git", "-c", f"safe.directory={TOP}", *words], cwd=TOP, capture_output=True, text=True, check=True).stdout
    except FileNotFoundError as error:
        raise Stop("git isn't installed") from error
    except subprocess.CalledProcessError as error:
        raise Stop(f"git {words[0]} failed: {error.stderr.strip()}") from error


def time_of_commit() -> int:
    """The time of the last commit in seconds since 1970, or that of the variable SOURCE_DATE_EPOCH. Raises `Stop` if there is neither."""
    given = os.environ.get("SOURCE_DATE_EPOCH")
    if given is None:
        given = git("log", "-1", "--format=%ct").strip()
    if not re.fullmatch(r"\d+", given):
        raise Stop(f"SOURCE_DATE_EPOCH isn't a number of seconds: {given}")
    return int(given)


def main(*words: str) -> int:
    """Prints the man page or the table, and returns the status of this script."""
    try:
        sys.stdout.write(table_csv() if words == ("commands",) else manual(version_of_sources(), time_of_commit()))
    except Stop as stop:
        print(f"manual: {stop}", file=sys.stderr)
        return 3
    return 0


if __name__ == "__main__":
    sys.exit(main(*sys.argv[1:]))
