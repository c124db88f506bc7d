"""A root of its own, into which dpkg installs a package: a folder with the few programs of this machine that the package's scripts and the
tour use."""
import os
import re
import shutil
import stat
import subprocess
from collections.abc import Sequence

from lib.files import read
from lib.programs import Told, told_by

# The programs that are copied into the root, and those that are copied if this machine has them.
PROGRAMS = ["sh", "getent", "id", "useradd", "userdel", "install", "rm", "rmdir", "mktemp", "dirname", "nologin"]
IF_INSTALLED = ["systemctl"]
FOLDERS = ["usr/bin", "usr/sbin", "usr/lib", "usr/lib64", "etc/systemd/system", "dev", "proc/self", "var/lib/dpkg/updates",
           "var/lib/dpkg/info"]
PATH = "/usr/sbin:/usr/bin:/sbin:/bin"
ENVIRONMENT = {"PATH": PATH, "LC_ALL": "C"}

# What isn't compared: what `useradd` and dpkg leave, which are copies of the files that they have changed and what dpkg knows; and what
# runs.
UNSEEN = re.compile(r"/etc/(passwd|group|shadow|gshadow)-|/etc/\.pwd\.lock|/var/lib/dpkg(/.*)?|/proc(/.*)?")

# Packages that dpkg believes installed: of the C library the version of this machine.
KNOWN = """Package: {name}
Status: install ok installed
Maintainer: nobody
Architecture: amd64
Version: {version}
Description: pretended

"""

Place = tuple[str, int, int, bytes]  # the mode as `ls` writes it, the user, the group, and the bytes or the target


def libraries_of(program: str) -> list[str]:
    """The paths of the shared libraries that a program uses."""
    return re.findall(r"(/\S+) \(0x", told_by(["ldd", program])[0].decode())


def is_possible() -> bool:
    """Whether this user may enter another root."""
    return told_by(["chroot", "/", "true"], env={**os.environ, "PATH": PATH})[1] == 0


class Root:
    """The root in a folder, in which nothing is installed at first. `program` is a program that will be installed: its libraries are
    copied."""

    def __init__(self, folder: str, program: str) -> None:
        self.folder = folder
        for name in FOLDERS:
            os.makedirs(self.path(name))
        for name in ("bin", "sbin", "lib", "lib64"):
            os.symlink(f"usr/{name}", self.path(name))
        os.mkdir(self.path("tmp"))
        os.chmod(self.path("tmp"), 0o1777)
        for name in PROGRAMS + IF_INSTALLED:
            found = shutil.which(name, path=PATH)
            if found is None and name in IF_INSTALLED:
                continue
            if found is None:
                raise RuntimeError(f"{name} isn't installed")
            for source in [found, *libraries_of(found)]:
                self.copy(source)
        for source in libraries_of(program):
            self.copy(source)
        self.write("etc/passwd", "root:x:0:0:root:/root:/bin/sh\n", 0o644)
        self.write("etc/group", "root:x:0:\n", 0o644)
        self.write("etc/shadow", "root:*:19000:0:99999:7:::\n", 0o640)
        self.write("etc/gshadow", "root:*::\n", 0o640)
        # As Debian has it: a user's own group is removed with them.
        self.write("etc/login.defs", "USERGROUPS_ENAB yes\n", 0o644)
        # An empty file is enough for what reads it, and needs no right to make devices.
        self.write("dev/null", "", 0o644)
        library = (os.confstr("CS_GNU_LIBC_VERSION") or "glibc 0").split()[1]
        known = {"libc6": library, "passwd": "1"}
        self.write("var/lib/dpkg/status", "".join(KNOWN.format(name=name, version=known[name]) for name in known), 0o644)
        for name in known:
            self.write(f"var/lib/dpkg/info/{name}.list", "", 0o644)

    def path(self, name: str) -> str:
        """The path of a file of the root, as this machine sees it."""
        return os.path.join(self.folder, name.lstrip("/"))

    def copy(self, source: str) -> None:
        """Copies a file of this machine to the same place."""
        target = self.path(source)
        os.makedirs(os.path.dirname(target), exist_ok=True)
        shutil.copyfile(source, target)
        os.chmod(target, 0o755)

    def write(self, name: str, text: str, mode: int) -> None:
        """Writes a file of root's."""
        os.makedirs(os.path.dirname(self.path(name)), exist_ok=True)
        with open(self.path(name), "w", encoding="utf-8") as file:
            file.write(text)
        os.chmod(self.path(name), mode)

    def run(self, *words: str, user: tuple[int, int] = (0, 0), given: bytes = b"") -> Told:
        """What a program in the root prints, its status, and what it prints on standard error. It runs as a user of a group."""
        # The owner of this folder is how a program learns its user.
        os.chown(self.path("proc/self"), *user)
        return told_by(["chroot", f"--userspec={user[0]}:{user[1]}", self.folder, *words], given, env=ENVIRONMENT)

    def add(self, name: str, line: str) -> None:
        """Adds a line to a file."""
        with open(self.path(name), "a", encoding="utf-8") as file:
            file.write(f"{line}\n")

    def dpkg(self, *words: str) -> tuple[int, bytes]:
        """The status of dpkg on this root, and what it prints on standard error. This machine's own settings leave out nothing. It doesn't
        wait for the disk."""
        command = ["dpkg", f"--root={self.folder}", f"--log={self.folder}/var/lib/dpkg/log", "--path-include=/*", "--force-unsafe-io"]
        run = subprocess.run([*command, *words], stdin=subprocess.DEVNULL, capture_output=True, env=ENVIRONMENT)
        return run.returncode, run.stderr

    def user(self, name: str) -> tuple[int, int] | None:
        """The numbers of a user and of its group, or None if there is no such user."""
        for line in read(self.path("etc/passwd")).decode().splitlines():
            fields = line.split(":")
            if fields[0] == name:
                return int(fields[2]), int(fields[3])
        return None

    def places(self) -> dict[str, Place]:
        """All that is in the root."""
        found = {}
        for parent, folders, files in os.walk(self.folder):
            for name in folders + files:
                path = os.path.join(parent, name)
                inner = path.removeprefix(self.folder)
                if not UNSEEN.fullmatch(inner):
                    found[inner] = place_of(path)
        return found


def place_of(path: str) -> Place:
    """What is at a path."""
    info = os.lstat(path)
    given = b""
    if stat.S_ISLNK(info.st_mode):
        given = os.readlink(path).encode()
    elif stat.S_ISREG(info.st_mode):
        given = read(path)
    return stat.filemode(info.st_mode), info.st_uid, info.st_gid, given


def changes(before: dict[str, Place], after: dict[str, Place]) -> Sequence[str]:
    """The paths that were added, removed or changed, sorted."""
    return sorted(path for path in before.keys() | after.keys() if before.get(path) != after.get(path))
