"""A namespace in which what is installed is tried, and the commands that are run there and here."""
from __future__ import annotations

import pathlib
import shutil
import subprocess
from collections.abc import Iterable, Sequence
from typing import Any

from .tally import LeftOut

# The seconds that a command may take.
LONGEST = 300


def ran(*words: object, **how: Any) -> subprocess.CompletedProcess[str]:
    return subprocess.run(list(map(str, words)), stdin=subprocess.DEVNULL, capture_output=True,
                          text=True, errors="replace",
                          check=False, timeout=LONGEST, **how)


def needs(*commands: str) -> None:
    for command in commands:
        if not shutil.which(command):
            raise LeftOut(f"{command} is not installed")


class Room:
    """A namespace of mounts and networks over the files of this machine. What is changed there is
    gone at its end."""

    ENTERED = ["--mount", "--net", "--root", "--wd"]
    SCRIPT = """set -e
        mount -t tmpfs room "$1"
        cd "$1"
        mkdir upper work merged
        mount -t overlay -o "lowerdir=/,upperdir=$1/upper,workdir=$1/work" room merged
        for shared in dev proc; do mount --rbind "/$shared" "merged/$shared"; done
        mount -t tmpfs -o mode=755 run merged/run
        exec chroot merged sh -c 'echo made; exec cat'"""
    # what stands in place of systemd's commands, and notes beside them how they are called
    ASKED = "usr/bin/asked"
    STAND_IN = '#!/bin/sh\necho "${0##*/} $*" >> "${0%/*}/asked"\n'
    # brings the loopback interface up (SIOCSIFFLAGS of netdevice(7))
    LOOPBACK = ("import fcntl, socket, struct; fcntl.ioctl(socket.socket(), 0x8914, "
                "struct.pack('16sh14x', b'lo', 1))")

    def __init__(self, folder: pathlib.Path) -> None:
        needs("unshare", "nsenter", "setpriv")
        self.child = subprocess.Popen(["unshare", "--mount", "--net", "sh", "-c", self.SCRIPT, "sh",
                                       folder], stdin=subprocess.PIPE,
                                      stdout=subprocess.PIPE, stderr=subprocess.PIPE, text=True)
        if self.child.stdout.readline() != "made\n":
            raise LeftOut(f"no namespace can be made here: {self.child.communicate()[1].strip()}")
        self.root = pathlib.Path(f"/proc/{self.child.pid}/root")

    def __enter__(self) -> Room:
        return self

    def __exit__(self, *_: object) -> None:
        self.child.communicate()

    def words(self, words: Iterable[object], user: str | None = None, groups: Sequence[str] = (),
              variables: Sequence[str] = ()) -> list[str]:
        """The words that run a command in the room, as root or as a user with these groups besides
        its own."""
        own = ["--groups", ",".join(groups)] if groups else ["--init-groups"]
        as_user = ["setpriv", "--reuid", user, "--regid", user, *own,
                   "--no-new-privs"] if user else []
        clean = ["env", "-i", "PATH=/usr/sbin:/usr/bin:/sbin:/bin", "LC_ALL=C.UTF-8",
                 "DEBIAN_FRONTEND=noninteractive", *variables]
        return ["nsenter", "--target", str(self.child.pid), *self.ENTERED, "--", *as_user, *clean,
                *map(str, words)]

    def ran(self, *words: object, **how: Any) -> subprocess.CompletedProcess[str]:
        return ran(*self.words(words, **how))

    def told(self, *words: object, **how: Any) -> tuple[str, int]:
        """All that a command tells, and its exit status."""
        done = self.ran(*words, **how)
        return done.stdout + done.stderr, done.returncode

    def dpkg(self, *words: object) -> tuple[str, int]:
        """What dpkg tells, and its exit status. (Triggers of other packages, as man's of its index,
        have no part in it.)"""
        return self.told("dpkg", "--no-triggers", *words)

    def note_systemd(self) -> None:
        """Lets scripts believe that systemd runs, and notes what they ask of it."""
        self.path("/run/systemd/system").mkdir(parents=True)
        for name in ("systemctl", "deb-systemd-invoke"):
            path = self.path(f"/usr/bin/{name}")
            path.unlink(missing_ok=True)
            path.write_text(self.STAND_IN)
            path.chmod(0o755)

    def asked(self) -> list[str]:
        """What was asked of systemd since this was called last."""
        path = self.path(self.ASKED)
        lines = path.read_text().splitlines() if path.exists() else []
        path.unlink(missing_ok=True)
        return lines

    def path(self, name: str) -> pathlib.Path:
        return self.root / name.lstrip("/")

    def identity(self, database: str, name: str) -> int | None:
        """The numeric identity of a user or a group; None where there is none."""
        found = self.ran("getent", database, name).stdout.split(":")
        return int(found[2]) if len(found) > 2 else None

    def named(self) -> set[str]:
        """The paths of this package's names."""
        places = ("/etc", "/usr/bin", "/usr/lib", "/usr/share", "/var/lib", "/run")
        return set(self.ran("find", *places, "(", "-name", "*newtiron*", "-o", "-name",
                            "*dq_server*", ")").stdout.split("\n"))
