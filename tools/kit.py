"""The kit's command as a module, for what the command itself does not offer: to prove crates side
by side, and to plant a wrong body in a copy of one. RT names the command."""
import importlib.machinery
import importlib.util
import os
import pathlib
import shutil
import sys
from typing import Any


def module() -> Any:
    """The command `rt`, loaded and not run."""
    command = os.environ.get("RT") or "rt"
    found = shutil.which(command) or sys.exit(f"there is no command '{command}': put the kit's bin "
                                              "folder on PATH, or name it in RT")
    path = os.path.realpath(found)
    sys.path.insert(0, os.path.dirname(path))
    loader = importlib.machinery.SourceFileLoader("rt_command", path)
    loaded = importlib.util.module_from_spec(importlib.util.spec_from_loader("rt_command", loader))
    loader.exec_module(loaded)
    return loaded


def crates_of(command: Any, top: pathlib.Path) -> Any:
    """The crates of the repository by name. The current folder becomes its top, as the kit wants
    it."""
    os.chdir(top)
    return {crate.name: crate for crate in command.rtlib.crates_below(str(top))}
