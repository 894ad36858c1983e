"""Plays what a page shows of a terminal, in a folder of its own.

A block of lines with four spaces before them is a terminal where its first line begins with `$ ` or
`dq_server `, or its last one is `^C`. Such a line is typed, in a shell of its own. The lines under
it are all that comes, where `...` stands for any lines, and one time (RFC 3339), port of 127.0.0.1,
or number of seconds or milliseconds in a line of the log for another. The exit status is that of
the refusal in the last line, or else 0. A command that serves stays: `^C` ends it, and lines above
`^C` are what it has told since. A line without `$` under which nothing stands is not played.

A fenced block under a line that ends in "`NAME`:" is the file of that name. What else a page needs
is made for it (GIVEN).
"""
import os
import pathlib
import re
import shutil
import signal
import subprocess
import tempfile
import time
from collections.abc import Callable, Iterator
from typing import Any

from .client import free_port, until
from .paths import TOP

# The ports that pages name, in whose places stand some that are free.
PORTS = ("11112", "8042")
# What takes too long, or asks for rights: it is counted, and not played.
LEFT_OUT = ("./build", "./test", "apt ")
TOOLS = ("dump2dcm", "echoscu", "storescu", "findscu", "curl")
# The names that tools have in the package.
PACKAGED = {"newtiron-send": "send_entry.py", "newtiron-key": "web_key"}
# The seconds that a command may take.
LONGEST = 60
TIME = re.compile(r"\d{4}-\d\d-\d\dT\d\d:\d\d:\d\d(\.\d+)?Z|(?<=127\.0\.0\.1:)\d+|\d+\.\d{3}(?= s "
                  r")|(?<= ms )\d+$", re.M)
# The exit status of a refusal, by its first word.
REFUSALS = {"config": 2, "capture": 3, "store": 4, "fault": 4, "network": 5}
# What is made before a page is played: an image, and a store of version 1.
GIVEN = {
    "CONNECT.md": """printf '%s\\n' '(0008,0016) UI =CTImageStorage' '(0008,0018) UI [1.2.3.4.5]' \
'(0008,0020) DA [20240705]' \\
        '(0010,0010) PN [DOE^JANE]' '(0010,0020) LO [P100]' '(0020,000d) UI [1.2.3]' \
'(0020,000e) UI [1.2.3.4]' \\
        '(7fe0,0010) OW 0001\\0203' > bin/image
        dump2dcm --write-xfer-little bin/image image.dcm""",
    "OPERATING.md": "cp suite/configurations/hospitals.toml . && suite/models version_1 rows.db",
}


def blocks_of(text: str) -> Iterator[tuple[str | None, Any]]:
    """The files and the blocks of a page, in order: a name with a text, or no name with lines."""
    for found in re.finditer(r"(?m)^```\w*\n((?:.*\n)*?)```$|((?:^ {4}.*\n)+)", text):
        if found[1] is not None:
            named = re.search(r"`([\w.-]+)`:\s*\Z", text[:found.start()])
            if named:
                yield named[1], found[1]
        else:
            yield None, [line[4:] for line in found[2].splitlines()]


def is_terminal(lines: list[str]) -> bool:
    return lines[0].startswith(("$ ", "dq_server ")) or lines[-1] == "^C"


def others(page: pathlib.Path) -> list[str]:
    """The blocks of a page that are no terminals, by their first lines."""
    return [lines[0] for name,
            lines in blocks_of(page.read_text()) if name is None and not is_terminal(lines)]


def commands_in(lines: list[str]) -> Iterator[tuple[str | None, list[str], bool]]:
    """Each command of a terminal with the lines that come, and whether it is to be played. Without
    a command, the lines are what comes of a command that serves already."""
    command, shown, is_prompted = None, [], lines[-1] == "^C"
    for line in lines:
        if line.startswith(("$ ", "dq_server ")):
            if command is not None:
                yield command, shown, is_prompted or bool(shown)
            command, shown, is_prompted = line.removeprefix("$ "), [], line.startswith("$ ")
        else:
            shown.append(line)
    yield command, shown, is_prompted or bool(shown)


def status_of(lines: list[str]) -> int:
    """The exit status of a command that prints these lines."""
    return REFUSALS.get(lines[-1].split(" ")[0], 0) if lines else 0


def is_shown(text: str, lines: list[str]) -> re.Match[str] | None:
    """Whether a text is these lines, where `...` is any; spaces at their ends, and the octet that
    pads a UID, do not count."""
    told = "".join(line.rstrip() + "\n"
                   for line in TIME.sub("TIME", text.replace("\0", "")).splitlines())
    lines = [TIME.sub("TIME", line.rstrip()) for line in lines]
    return re.fullmatch("".join(r"(?:.*\n)*?" if line == "..." else re.escape(line) + r"\n"
                                for line in lines), told)


class Terminal:
    """A folder with what a page needs, and the server that runs in it."""

    server: subprocess.Popen[Any] | None

    def __init__(self, program: str, folder: str) -> None:
        self.folder, self.server, self.ports = pathlib.Path(folder), None, dict(zip(PORTS, PORTS))
        for name in ("captures", "suite", "tools"):
            (self.folder / name).symlink_to(TOP / name)
        for name in ("run", "bin/dq_server"):
            path = self.folder / name
            path.parent.mkdir(exist_ok=True)
            path.write_text(f'#!/bin/sh\nexec "{program}" "$@"\n')
            path.chmod(0o755)
        for name, tool in PACKAGED.items():
            (self.folder / "bin" / name).symlink_to(TOP / "tools" / tool)
        self.environment = {**os.environ, "PATH": f"{self.folder / 'bin'}:{os.environ['PATH']}"}
        self.told = self.folder / "bin/told"

    def with_ports(self, text: str) -> str:
        """A command or a line, with the ports that are free."""
        for named, port in self.ports.items():
            text = text.replace(named, port)
        return text

    def run(self, command: str, **how: Any) -> subprocess.Popen[Any]:
        # (a suite that runs in the background has Ctrl-C ignored, and so would what it starts)
        return subprocess.Popen(["bash", "-c", self.with_ports(command)], cwd=self.folder,
                                env=self.environment,
                                stdin=subprocess.DEVNULL, stderr=subprocess.STDOUT,
                                start_new_session=True,
                                preexec_fn=lambda: signal.signal(signal.SIGINT, signal.SIG_DFL),
                                **how)

    def typed(self, command: str) -> tuple[str, int | str]:
        """All that a command tells, and its exit status."""
        child = self.run(command, stdout=subprocess.PIPE, text=True, errors="replace")
        try:
            return child.communicate(timeout=LONGEST)[0], child.returncode
        except subprocess.TimeoutExpired:
            os.killpg(child.pid, signal.SIGKILL)
            return child.communicate()[0], "none in time"

    def served(self, command: str, lines: list[str]) -> tuple[str, int | str]:
        """What a command that stays has told, once it is these lines, or has ended, or time is
        over."""
        self.end()
        with open(self.told, "wb") as told:
            self.server = self.run(command, stdout=told)
        until(lambda: is_shown(self.since(0), lines) or self.server.poll() is not None)
        self.seen = len(self.since(0))
        return self.since(0), self.server.poll() or 0

    def since(self, at: int) -> str:
        return self.told.read_text(errors="replace")[at:]

    def ended(self) -> tuple[str, int | str]:
        """What the server has told since it was ready, and whether Ctrl-C was what ended it."""
        if self.server is None:
            return "", "nothing serves"
        if self.server.poll() is None:
            time.sleep(0.2)
            os.killpg(self.server.pid, signal.SIGINT)
        status = self.server.wait(LONGEST)
        text = self.since(self.seen)
        self.server = None
        return text, 0 if status in (0, -signal.SIGINT, 128 + signal.SIGINT) else status

    def end(self) -> None:
        if self.server is not None and self.server.poll() is None:
            os.killpg(self.server.pid, signal.SIGKILL)
            self.server.wait()
        self.server = None

    def play(self, command: str | None, shown: list[str]) -> tuple[str, list[str], int | str]:
        """What came, the lines that should, and the exit status."""
        if command is None:
            text, status = self.ended()
            shown = shown[:-1]
        elif " serve " in command:
            # (one that is free now: beside other suites it may not be for long)
            self.ports = {named: str(free_port()) for named in PORTS}
            text, status = self.served(command, list(map(self.with_ports, shown)))
        else:
            text, status = self.typed(command)
        return text, list(map(self.with_ports, shown)), status


def missing_tool(command: str | None) -> str | None:
    """The tool that a command calls and that is not installed."""
    name = (command or "").split(" ")[0]
    return name if name in TOOLS and not shutil.which(name) else None


def play(page: pathlib.Path, program: str, told: Callable[..., object]) -> tuple[int, str | None]:
    """Plays a page. `told` is called for each command with its name, whether it came out as is
    shown, and why not. Returns how many commands were left out, and the tool that is not installed,
    without which nothing that follows is as the page shows it."""
    left_out, missing = 0, None
    with tempfile.TemporaryDirectory(prefix="terminal-") as folder:
        terminal = Terminal(program, folder)
        terminal.typed(GIVEN.get(page.name, ""))
        try:
            for name, block in blocks_of(page.read_text()):
                if name:
                    (terminal.folder / name).write_text(block)
                    continue
                for command, shown, is_played in commands_in(block) if is_terminal(block) else ():
                    missing = missing or missing_tool(command)
                    if missing or not is_played or (command or "").startswith(LEFT_OUT):
                        left_out += 1
                        continue
                    text, lines, status = terminal.play(command, shown)
                    is_right = status == status_of(lines) and bool(is_shown(text, lines))
                    told(f"{page.name}: {command or '^C'}", is_right,
                         f"exit {status}, and came\n{text[:1500]}")
        finally:
            terminal.end()
    return left_out, missing
