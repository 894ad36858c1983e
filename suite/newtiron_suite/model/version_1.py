"""Makes the store of version 1 that stands in suite/version_1 as text: suite/models version_1
FILE"""
import pathlib

from ..paths import SUITE

TEXT = SUITE / "version_1" / "rows.octets"


def kept_store(path: pathlib.Path) -> pathlib.Path:
    """The file: its octets are zeros where the text has no others."""
    lines = [line.split(" ") for line in TEXT.read_text().split("\n") if line and line[0] != "#"]
    octets = bytearray(int(lines[0][1]))
    for offset, digits in lines[1:]:
        at, some = int(offset, 16), bytes.fromhex(digits)
        octets[at:at + len(some)] = some
    path.write_bytes(octets)
    return path


def main(words: list[str]) -> None:
    kept_store(pathlib.Path(words[0]))
