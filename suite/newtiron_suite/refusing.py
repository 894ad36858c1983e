"""The libraries that refuse calls of the disk and of sockets (tools/refuse_file.c), and allocations
(tools/refuse_alloc.c)."""
import os
import pathlib
import subprocess

from .paths import TOP


def made_library(folder: pathlib.Path, name: str = "refuse_file") -> pathlib.Path:
    """Makes a library in a folder, with the C compiler that CC names."""
    library = folder / f"{name}.so"
    compiler = os.environ.get("CC") or "cc"
    subprocess.run([compiler, "-O1", "-shared", "-fPIC", "-o", library, TOP / f"tools/{name}.c",
                    "-ldl"], check=True)
    return library
