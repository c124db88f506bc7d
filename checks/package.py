#!/usr/bin/env python3
"""Makes the packages of the program (build/package) twice, under different circumstances, and compares their bytes, their digests, and the
owners, modes and times in them. Installs the Debian package by dpkg in a root of its own, runs the tour there as the user `tacho`, updates
the package, removes it and purges it, with and without an archive, and compares what is left. Installs it where a user or a group `tacho`
is there before, and where the archive's folder is a link. Asks lintian for errors. Runs the tour from the tar file. Compares the
man page with what the program prints for `tacho help` and `tacho help COMMAND`, the commands and requests that README.md and
docs/FORMATS.md list with build/commands.csv, and CHANGELOG.md and `tacho version` with VERSION.

Argument: the program. Where dpkg-deb isn't installed, only the man page and CHANGELOG.md are looked at. Only root can install the package.
The last line is 'N passed, M failed'."""
import gzip
import hashlib
import io
import os
import re
import shutil
import struct
import subprocess
import sys
import tarfile
import tempfile
import time
from collections.abc import Callable

from lib import counting, root
from lib.commands import COMMANDS, REQUESTS
from lib.counting import Comparisons
from lib.files import EXAMPLES, TOP, content, read, write
from lib.programs import told_by, version_lines
from lib.root import Root
from slow import slow_server

MANUAL = os.path.join(TOP, "build", "manual.py")
PACKAGE = os.path.join(TOP, "build", "package")
SUMS = "SHA256SUMS"
DOCUMENTS = "usr/share/doc/tacho"
UNITS = "usr/lib/systemd/system"
ARCHIVE = "/var/lib/tacho/archive.db"
USERS = ["/etc/group", "/etc/gshadow", "/etc/passwd", "/etc/shadow"]

# The files of a Debian package that may be executed, and the folders that not everyone may read.
EXECUTABLE = ["usr/bin/tacho", "usr/lib/tacho/backup", f"{DOCUMENTS}/examples/tour"]
SHUT = {"etc/tacho": 0o700}

# A second making: nothing of this may change a byte.
ELSEWHERE = {"TZ": "Asia/Tokyo", "LC_ALL": "C.UTF-8", "HOME": "/nowhere"}


def version() -> str:
    """The version of the sources."""
    return read(os.path.join(TOP, "VERSION")).decode().strip()


# The man page

def plain(source: str) -> str:
    """A line of roff source as it is printed."""
    for written, printed in (("\\fB", ""), ("\\fI", ""), ("\\fR", ""), ("\\&", ""), ("\\-", "-"), ("\\(aq", "'"), ("\\e", "\\")):
        source = source.replace(written, printed)
    return source


def sections_of(page: str) -> dict[str, list[tuple[str, str]]]:
    """The terms and their descriptions in each section of a man page."""
    parts = re.split(r"^\.SH (.*)\n", page, flags=re.MULTILINE)
    return {name: [(plain(term), plain(about)) for term, about in re.findall(r"^\.TP\n(.*)\n(.*)$", text, re.MULTILINE)]
            for name, text in zip(parts[1::2], parts[2::2])}


def helped(program: str, *words: str) -> str:
    """What the program prints for `help`."""
    return told_by([program, "help", *words])[0].decode()


def rows_of(text: str, heading: str) -> list[tuple[str, str]]:
    """The rows below a heading of a help text: a word and its description."""
    found = re.search(rf"^{heading}:\n((?:  .*\n)*)", text, re.MULTILINE)
    return re.findall(r"^  (\S+) +(.*)$", found[1], re.MULTILINE) if found else []


def form_by(program: str, name: str) -> list[str]:
    """How a command is typed, by its own help text."""
    return re.findall(r"^(?:Usage:|      ) tacho (.*)$", helped(program, name), re.MULTILINE)


def statuses(program: str) -> list[int]:
    """The statuses of a command that is done, of one that is refused, of arguments that name no command, and of a file that isn't there."""
    with tempfile.TemporaryDirectory() as folder:
        path = os.path.join(folder, "archive.db")
        runs = [["init", path], ["entries", path, "999"], [], ["entries", os.path.join(folder, "other.db"), "17"]]
        return [told_by([program, *words])[1] for words in runs]


def in_braces(path: str) -> str:
    """The path of the slow server with the names of the table for what is in braces: the driver, the other argument, and that after it."""
    path = re.sub(r"\{(time|last|past)\}", "{next}", path.replace("/drivers/{n}", "/drivers/{driver}"))
    return re.sub(r"\{(?!driver\}|next\})\w+\}", "{word}", path)


def man_page(program: str) -> Comparisons:
    """The man page: its commands, arguments and statuses are those of the program."""
    told, status, said = told_by([MANUAL])
    yield "the making of the man page", (status, said), (0, b"")
    sections = sections_of(told.decode())
    rows = rows_of(helped(program), "Commands")
    yield "the last row of the program's help", [name for name, _ in rows][-1:], ["help"]
    commands = rows[:-1]
    shown = sections.get("COMMANDS", [])
    forms = [form for name, _ in commands for form in form_by(program, name)]
    yield "the forms of the commands in the man page", [form for form, _ in shown[:-1]], forms
    yield "the commands of the man page", [about for form, about in shown[:-1] if not form.endswith("...")], [about for _, about in commands]
    yield "the last command of the man page", [term for term, _ in shown[-1:]], ["help [COMMAND]"]
    arguments = {(word.strip("[]"), about) for name, _ in commands for word, about in rows_of(helped(program, name), "Arguments")}
    yield "the arguments of the man page", sorted(sections.get("ARGUMENTS", [])), sorted(arguments)
    yield "the statuses of the man page", [int(term) for term, _ in sections.get("EXIT STATUS", [])], statuses(program)
    yield "the version in the man page", f'"tacho {version()}"\n' in told.decode(), True
    if shutil.which("groff"):
        yield "what groff says about the man page", told_by(["groff", "-man", "-ww", "-Tascii", "-z"], told), (b"", 0, b"")
    else:
        print("left out: what groff says about the man page: apt install groff-base", flush=True)


def table_of_commands() -> Comparisons:
    """build/commands.csv: what the script makes of the program's table, and the requests of the slow server."""
    yield "the table of commands", told_by([MANUAL, "commands"]), (read(os.path.join(TOP, "build", "commands.csv")), 0, b"")
    for who, routes in (("office", slow_server.OFFICE_ROUTES), ("driver", slow_server.DRIVER_ROUTES)):
        made = sorted((path, command.method, name) for name, command in REQUESTS.items() for path in getattr(command, who))
        wanted = sorted((in_braces(path), method, "import" if name == "own" else name)
                        for path, names in routes.items() for method, name in names.items())
        yield f"the requests of the {who}", made, wanted


# An item of a list in a document, the names of commands in it, and its request.
ITEM = re.compile(r"^- (.*(?:\n  .*)*)", re.MULTILINE)
NAMED = re.compile(r"`([a-z]+)[^`]*`")
METHOD = re.compile(r"(GET|POST) (`.*)", re.DOTALL)


def items_of(page: str, heading: str) -> list[str]:
    """The items of the lists below a heading of a page."""
    return ITEM.findall(page.split(f"\n{heading}\n")[1].split("\n#")[0])


def requests_in(item: str) -> set[tuple[str, str]]:
    """The methods and paths of the requests that an item names, also those whose name alone is another, as in `the same with`."""
    found = METHOD.match(item)
    if found is None:
        return set()
    method, text = found.groups()
    paths = re.findall(r"`(/[^`]*)`", text)
    names = re.findall(r"`([a-z]+)`", " ".join(re.findall(r"with ((?:`[a-z]+`(?:, | and )?)+)", text)))
    others = [re.sub(r"/[a-z]+(/[\d-]+)?$", rf"/{name}\1", path) for path in paths for name in names]
    return {(method, place_of(path)) for path in [*paths, *others]}


def place_of(path: str) -> str:
    """A path of examples with names of its variable parts."""
    path = re.sub(r"(/\d[\d-]*)/[\d:-]+$", r"\1/{next}", path.replace("/17", "/{driver}").replace("/both", "/{word}"))
    return re.sub(r"/\d[\d-]*(?=$|/\{next\})", "/{word}", path)


def lists_in_documents() -> Comparisons:
    """The commands and the requests that docs/FORMATS.md lists, and the commands that README.md names: those of build/commands.csv."""
    formats, readme = (read(os.path.join(TOP, name)).decode() for name in ("docs/FORMATS.md", "README.md"))
    begun = [re.match(r"(?:`[^`]*`(?:, )?)+", item) for item in items_of(formats, "## Commands")]
    named = {name for found in begun if found for name in NAMED.findall(found[0])}
    yield "the commands that FORMATS lists", sorted(named), sorted({*COMMANDS, "help"})
    shown = readme.split("\nThe commands (docs/FORMATS.md")[1].split("\n#")[0]
    yield "the commands that README names", sorted(set(re.findall(r"`([a-z]+)`", shown))), sorted({*COMMANDS, "help"})
    listed = {place for item in items_of(formats, "### What a driver can ask for, and what only the office") for place in requests_in(item)}
    made = {(command.method, path) for command in REQUESTS.values() for path in [*command.office, *command.driver]}
    yield "the requests that FORMATS lists", sorted(listed), sorted(made)


def of_version(program: str) -> Comparisons:
    """What `version` prints: the version of the sources, the schema of the archives, and the kit's logic."""
    yield "the lines of version", told_by([program, "version"]), (version_lines(), 0, b"")


def change_log() -> Comparisons:
    """CHANGELOG.md: its first section is that of the version, and each says what an office has to do."""
    parts = re.split(r"^## (.*)\n", read(os.path.join(TOP, "CHANGELOG.md")).decode(), flags=re.MULTILINE)
    yield "the latest version of CHANGELOG.md", parts[1:2], [version()]
    for name, text in zip(parts[1::2], parts[2::2]):
        yield f"what an office has to do for {name}", text.count("\nWhat an office has to do:\n"), 1


# The files

def make(program: str, folder: str, mask: int, **others: str) -> tuple[dict[str, bytes], list[str], int]:
    """Makes the packages in a folder. Returns the bytes of each file, what was printed, and the status."""
    run = subprocess.run([PACKAGE, program, folder], stdin=subprocess.DEVNULL, capture_output=True, umask=mask, cwd=os.path.dirname(folder),
                         env={**os.environ, **others})
    if run.returncode != 0:
        sys.stderr.buffer.write(run.stderr)
        return {}, [], run.returncode
    return {name: read(os.path.join(folder, name)) for name in sorted(os.listdir(folder))}, run.stdout.decode().splitlines(), 0


def sums_of(files: dict[str, bytes]) -> str:
    """The digests of files, as `sha256sum` writes them."""
    return "".join(f"{hashlib.sha256(files[name]).hexdigest()}  {name}\n" for name in sorted(files))


def described(whole: tarfile.TarFile, prefix: str) -> tuple[dict[str, bytes], dict[str, int], set[object]]:
    """The files of a tar file, the modes of files and folders that differ from the usual, and the different owners and times."""
    files, modes, others = {}, {}, set()
    for entry in whole:
        name = entry.name.removeprefix(prefix).strip("/")
        others.add((entry.uid, entry.gid, entry.uname, entry.gname, entry.mtime))
        if entry.mode != (0o755 if entry.isdir() else 0o644):
            modes[name] = entry.mode
        taken = whole.extractfile(entry)
        if taken is not None:
            files[name] = taken.read()
    return files, modes, others


def contents(name: str, packed: bytes, prefix: str, sums: str, modes: dict[str, int]) -> Comparisons:
    """What is in a tar file: digests, owners, modes, times and order. `prefix` is in front of each path, and `sums` the path of the
    digests."""
    with tarfile.open(fileobj=io.BytesIO(packed)) as whole:
        names = [entry.name for entry in whole]
        files, found, others = described(whole, prefix)
    told = told_by(["git", "-c", f"safe.directory={TOP}", "log", "-1", "--format=%ct"], cwd=TOP)[0]
    epoch = int(os.environ.get("SOURCE_DATE_EPOCH") or told)
    yield f"{name}: the order", names, sorted(names, key=lambda path: path.split("/"))
    yield f"{name}: the digests", files.pop(sums, b"").decode(), sums_of(files)
    yield f"{name}: the owners and times", others, {(0, 0, "root", "root", epoch)}
    yield f"{name}: modes", found, modes


def packages(program: str, folder: str, made: dict[str, bytes]) -> Comparisons:
    """The files that were made."""
    debian, tar = f"tacho_{version()}_amd64.deb", f"tacho-{version()}-linux-amd64.tar.gz"
    yield "the names of the packages", sorted(made), sorted([SUMS, debian, tar])
    yield "the digests of the packages", made[SUMS].decode(), sums_of({name: made[name] for name in (debian, tar)})
    whole = told_by(["dpkg-deb", "--fsys-tarfile", os.path.join(folder, debian)])[0]
    yield from contents("the Debian package", whole, "./", f"{DOCUMENTS}/{SUMS}", {**dict.fromkeys(EXECUTABLE, 0o755), **SHUT})
    head = f"tacho-{version()}/"
    executable = dict.fromkeys(["examples/tacho-backup.sh", "examples/tour", "tacho"], 0o755)
    yield from contents("the tar file", gzip.decompress(made[tar]), head, SUMS, executable)
    yield "the times of gzip", (made[tar][4:8], made[tar][3]), (bytes(4), 0)
    yield from for_debian(os.path.join(folder, debian))
    told = told_by(["dpkg-deb", "-f", os.path.join(folder, debian), "Version"])[0]
    yield "the version of the Debian package", told, f"{version()}\n".encode()
    with tempfile.TemporaryDirectory() as unpacked:
        with tarfile.open(os.path.join(folder, tar)) as archive:
            archive.extractall(unpacked)
        top = os.path.join(unpacked, head)
        yield from packed_program("the program of the tar file", os.path.join(top, "tacho"), program)
        yield "the man page of the tar file", read(os.path.join(top, "tacho.1")), told_by([MANUAL])[0]
        yield from tour("the tour of the tar file", told_by([os.path.join(top, "examples", "tour")]))


def of_tomorrow(program: str, folder: str) -> Comparisons:
    """The times in packages of a commit of tomorrow: those of the commit, whatever the clock says."""
    epoch = int(time.time()) + 86_400
    made, _, status = make(program, folder, 0o022, SOURCE_DATE_EPOCH=str(epoch))
    yield "the making of packages of tomorrow", status, 0
    for name in made:
        if name != SUMS:
            path = os.path.join(folder, name)
            whole = told_by(["dpkg-deb", "--fsys-tarfile", path])[0] if name.endswith(".deb") else gzip.decompress(made[name])
            with tarfile.open(fileobj=io.BytesIO(whole)) as packed:
                yield f"the times in {name} of tomorrow", {entry.mtime for entry in packed}, {epoch}


def loaded(program: bytes) -> list[tuple[int, bytes]]:
    """The parts of a program that are loaded into memory: the address and the bytes of each. The head of the file, which is loaded too, is
    left out, since it says where the symbols are."""
    start, = struct.unpack_from("<Q", program, 32)
    size, count = struct.unpack_from("<HH", program, 54)
    heads = [struct.unpack_from("<IIQQQQ", program, start + size * number) for number in range(count)]
    return [(address, program[offset or 64:offset + length]) for kind, _, offset, address, _, length in heads if kind == 1]


def sections(path: str) -> list[str]:
    """The names of a program's sections."""
    return re.findall(r"\] (\.\S+)", told_by(["readelf", "-SW", path], env={**os.environ, "LC_ALL": "C"})[0].decode())


def packed_program(name: str, path: str, program: str) -> Comparisons:
    """A program in a package: that which was given, without its symbols."""
    yield f"{name}: what is loaded", loaded(read(path)) == loaded(read(program)), True
    yield f"{name}: its version", told_by([path, "version"]), told_by([program, "version"])
    if shutil.which("readelf"):
        yield f"{name}: its symbols", {".symtab", ".debug_info"} & {*sections(path)}, set()
    else:
        print("left out: whether the packed program has symbols: apt install binutils", flush=True)


def for_debian(path: str) -> Comparisons:
    """What Debian asks for: a list of changes, the copyright, and what else lintian calls an error."""
    with tempfile.TemporaryDirectory() as unpacked:
        told_by(["dpkg-deb", "-x", path, unpacked])
        changes = content(os.path.join(unpacked, DOCUMENTS, "changelog.gz"))
        text = gzip.decompress(changes).decode() if changes else ""
        yield "the first line of the list of changes", text.partition("\n")[0], f"tacho ({version()}) unstable; urgency=medium"
        copyrights = (content(os.path.join(unpacked, DOCUMENTS, "copyright")) or b"").decode()
        yield "the copyright", "Copyright the authors of Mansulip. No licence is given; ask the owner." in copyrights, True
    if shutil.which("lintian"):
        told = told_by(["lintian", "--allow-root", path])[0].decode().splitlines()
        yield "the errors that lintian reports", [line for line in told if line.startswith("E: ")], []
    else:
        print("left out: what lintian says about the Debian package: apt install lintian", flush=True)


def tour(name: str, told: tuple[bytes, int, bytes]) -> Comparisons:
    """What the tour has printed, line by line, and its status."""
    yield name, told[0].decode().splitlines() + [told[1]], read(os.path.join(EXAMPLES, "tour.expected")).decode().splitlines() + [0]


# The installation

def installed(place: Root, program: str) -> Comparisons:
    """What the first installation has made: a user, its folder, and the files. Nothing is enabled."""
    yield from packed_program("the installed program", place.path("usr/bin/tacho"), program)
    yield "the installed man page", gzip.decompress(read(place.path("usr/share/man/man1/tacho.1.gz"))), told_by([MANUAL])[0]
    user = place.user("tacho")
    yield "whether there is a user", user is not None and 0 < user[0] < 1000, True
    line = next((line for line in read(place.path("etc/passwd")).decode().splitlines() if line.startswith("tacho:")), "")
    yield "their home and shell", line.split(":")[5:], ["/var/lib/tacho", "/usr/sbin/nologin"]
    places = place.places()
    yield "the folder of the archive", places.get("/var/lib/tacho"), ("drwx------", *(user or (0, 0)), b"")
    yield "the folder of the office's key", places.get("/etc/tacho"), ("drwx------", 0, 0, b"")
    yield "units that are enabled", enabled(place), []
    lines = [line.split("  ") for line in read(place.path(f"{DOCUMENTS}/{SUMS}")).decode().splitlines()]
    wrong = [name for digest, name in lines if hashlib.sha256(read(place.path(name))).hexdigest() != digest]
    yield "installed files with another digest", wrong, []
    yield from units(place)


def enabled(place: Root) -> list[str]:
    """The units that systemd starts by itself."""
    return sorted(os.path.basename(path) for path in place.places() if re.match(r"/etc/systemd/system/.*\.wants/", path))


def units(place: Root) -> Comparisons:
    """The installed units: those of the examples with the places of the package."""
    for name in ("tacho.service", "tacho-backup.service", "tacho-backup.timer"):
        text = read(os.path.join(EXAMPLES, name)).decode()
        told = (content(place.path(f"{UNITS}/{name}")) or b"").decode()
        yield f"the unit {name}", told.splitlines(), text.replace("/usr/local/", "/usr/").splitlines()
    for name, path in (("tacho.service", "/usr/bin/tacho"), ("tacho-backup.service", "/usr/lib/tacho/backup")):
        text = (content(place.path(f"{UNITS}/{name}")) or b"").decode()
        named = sorted({*re.findall(r"/usr/[a-z/]*tacho[a-z/]*", text)})
        yield f"the places that {name} names, and who may run them", \
            [(path, place.places().get(path, ("",))[0]) for path in named], [(path, "-rwxr-xr-x")]
    yield "the script of the backup", content(place.path("usr/lib/tacho/backup")), read(os.path.join(EXAMPLES, "tacho-backup.sh"))


def used(place: Root) -> Comparisons:
    """The installed program, as the user `tacho`: the tour, and an archive with a driver and a card file."""
    user = place.user("tacho") or (0, 0)
    yield from tour("the tour in the root", place.run(f"/{DOCUMENTS}/examples/tour", "/usr/bin/tacho", user=user))
    yield "an archive", place.run("/usr/bin/tacho", "init", ARCHIVE, user=user), (b"created\n", 0, b"")
    for words, example in (["register", ARCHIVE], "driver.csv"), (["import", ARCHIVE, "both"], "driver-year.ddd"):
        told = place.run("/usr/bin/tacho", *words, user=user, given=read(os.path.join(EXAMPLES, example)))
        yield f"{words[0]} in the root", told[1:], (0, b"")
    yield "who may read the archive", place.places().get(ARCHIVE, ())[:3], ("-rw-------", *user)


def kept(place: Root, before: dict[str, root.Place], name: str, others: list[str]) -> Comparisons:
    """What is left of the package: the archive as it was, its folder and its user, and some other paths."""
    held = place.places()
    archive = [path for path in sorted(held) if path.startswith("/var/lib/tacho")]
    yield f"what is left {name}", root.changes(before, held), sorted([*USERS, *archive, *others])


def removals(place: Root, package: str, before: dict[str, root.Place]) -> Comparisons:
    """An update, a removal, a purge and another installation, none of which touches the archive; and a purge without an archive."""
    user = place.user("tacho")
    place.write("etc/tacho/key", "office-key-1\n", 0o600)
    if os.path.exists(place.path("usr/bin/systemctl")):
        told = place.run("systemctl", "--quiet", "enable", "tacho.service", "tacho-backup.timer")
        yield "units that the office enables", (told[1], enabled(place)), (0, ["tacho-backup.timer", "tacho.service"])
    archive = of_archive(place)
    yield "files of an archive", f"{ARCHIVE}" in archive, True
    held = place.places()
    yield "the same package once more", place.dpkg("--install", package), (0, b"")
    yield "what that has changed", root.changes(held, place.places()), []
    yield "a removal", place.dpkg("--remove", "tacho")[0], 0
    yield from kept(place, before, "after a removal", ["/etc/tacho", "/etc/tacho/key"])
    yield "a purge", place.dpkg("--purge", "tacho")[0], 0
    yield from kept(place, before, "after a purge", [])
    yield "the archive after a purge", of_archive(place) == archive, True
    yield "another installation", place.dpkg("--install", package), (0, b"")
    yield "the archive and its user then", (of_archive(place) == archive, place.user("tacho")), (True, user)
    for path in of_archive(place):
        if path != "/var/lib/tacho":
            os.remove(place.path(path))
    yield "a purge without an archive", place.dpkg("--purge", "tacho")[0], 0
    yield "what is left after it", (root.changes(before, place.places()), place.user("tacho")), (USERS, user)


# Accounts that a person has made before the installation. Each is a line of a file.
GROUP = ("etc/group", "tacho:x:990:anna")
USER = ("etc/passwd", "tacho:x:991:100:Anna:/home/anna:/bin/sh")
FOLDER = "/var/lib/tacho"


def other_accounts(make: Callable[[str], Root], package: str) -> Comparisons:
    """Installations where there is a group `tacho` without the user, or a user without the group: they use it. A purge leaves it."""
    for name, (path, line), number in (("a group without a user", GROUP, (None, 990)), ("a user without a group", USER, (991, 100))):
        place = make(name)
        place.add(path, line)
        yield f"{name}: the installation", place.dpkg("--install", package), (0, b"")
        user = place.user("tacho") or (0, 0)
        yield f"{name}: the user", user, (number[0] or user[0], number[1])
        yield f"{name}: the folder", place.places().get(FOLDER), ("drwx------", *user, b"")
        lines = {path: read(place.path(path)) for path in ("etc/group", "etc/passwd")}
        yield f"{name}: the line", f"\n{line}\n".encode() in lines[path], True
        yield f"{name}: a purge", place.dpkg("--purge", "tacho")[0], 0
        yield f"{name}: the accounts after it", {path: read(place.path(path)) for path in lines} == lines, True


def links(make: Callable[[str], Root], package: str) -> Comparisons:
    """Installations where the archive's folder is a link: to nothing, which is refused, and to a disk, which is away at the purge."""
    place = make("a link")
    os.makedirs(place.path("srv"))
    os.symlink("/srv/tacho", place.path(FOLDER))
    status, said = place.dpkg("--install", package)
    sentence = b"tacho: Mount its disk, or remove it. Then give: dpkg --configure tacho\n"
    yield "a link that leads nowhere", (status, sentence in said, place.user("tacho")), (1, True, None)
    os.mkdir(place.path("srv/tacho"))
    yield "the same with the disk", place.dpkg("--configure", "tacho"), (0, b"")
    user = place.user("tacho")
    yield "a link to a disk", (user is not None, os.readlink(place.path(FOLDER))), (True, "/srv/tacho")
    os.rmdir(place.path("srv/tacho"))
    yield "a purge without the disk", (place.dpkg("--purge", "tacho")[0], place.user("tacho")), (0, user)
    yield "the link then", os.path.islink(place.path(FOLDER)), True
    place = make("a file")
    place.write(FOLDER, "", 0o644)
    status, said = place.dpkg("--install", package)
    yield "a file in the folder's place", (status, sentence in said, place.user("tacho")), (1, True, None)


def systemd_calls(place: Root, package: str) -> Comparisons:
    """What systemd is told while it runs: no unit is enabled or started, a running service is restarted by an installation, and a removal
    ends and disables the units."""
    place.write("usr/bin/systemctl", "#!/bin/sh\necho \"$*\" >>/calls\n", 0o755)
    os.makedirs(place.path("run/systemd/system"))
    restart = ["daemon-reload", "try-restart tacho.service"]
    stop = ["stop tacho-backup.timer tacho-backup.service", "stop tacho.service"]
    end = [*stop, "--quiet disable tacho-backup.timer tacho.service", "daemon-reload"]
    for words, wanted in (["--install", package], restart), (["--install", package], restart), (["--remove", "tacho"], end), \
            (["--purge", "tacho"], []):
        place.write("calls", "", 0o644)
        status = place.dpkg(*words)[0]
        yield f"what systemd is told by {words[0]}", (status, read(place.path("calls")).decode().splitlines()), (0, wanted)


def of_archive(place: Root) -> dict[str, root.Place]:
    """The archive's folder and its files."""
    return {path: held for path, held in place.places().items() if path.startswith("/var/lib/tacho")}


def installation(program: str, folder: str, package: str) -> Comparisons:
    """The installation in a root of its own, its use, and its end."""
    if not root.is_possible():
        print("left out: the installation of the package in a root of its own: run this check as root", flush=True)
        return

    def make(name: str) -> Root:
        path = os.path.join(folder, name)
        os.makedirs(path)
        for part in (folder, path):
            os.chmod(part, 0o755)
        return Root(path, program)

    place = make("root")
    before = place.places()
    told = place.dpkg("--install", package)
    yield "the installation", told, (0, b"")
    if told[0] != 0:
        return
    yield from installed(place, program)
    yield from used(place)
    yield from removals(place, package, before)
    yield from systemd_calls(place, package)
    yield from other_accounts(make, package)
    yield from links(make, package)


def comparisons(program: str) -> Comparisons:
    """All comparisons."""
    program = os.path.abspath(program)
    yield from man_page(program)
    yield from table_of_commands()
    yield from lists_in_documents()
    yield from of_version(program)
    yield from change_log()
    if not shutil.which("dpkg-deb"):
        print("left out: the packages, since dpkg-deb isn't installed: apt install dpkg", flush=True)
        return
    with tempfile.TemporaryDirectory() as folder:
        made, printed, status = make(program, os.path.join(folder, "made"), 0o022)
        yield "the making of the packages", status, 0
        if status != 0:
            return
        yield "what it prints", printed, [os.path.join(folder, "made", name) for name in
                                          (f"tacho_{version()}_amd64.deb", f"tacho-{version()}-linux-amd64.tar.gz", SUMS)]
        copy = os.path.join(folder, "copy")
        write(copy, read(program))
        os.utime(copy, (0, 0))
        time.sleep(1.1)  # so that a time of the clock would be another one
        again, _, status = make(copy, os.path.join(folder, "again"), 0o077, TMPDIR=folder, **ELSEWHERE)
        yield "the same packages once more", (status, [name for name in made if again.get(name) != made[name]]), (0, [])
        yield from of_tomorrow(program, os.path.join(folder, "tomorrow"))
        yield from packages(program, os.path.join(folder, "made"), made)
        yield from installation(program, os.path.join(folder, "roots"), os.path.join(folder, "made", f"tacho_{version()}_amd64.deb"))


if __name__ == "__main__":
    sys.exit(counting.count(comparisons(*sys.argv[1:])))
