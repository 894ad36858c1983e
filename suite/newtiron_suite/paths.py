"""Where the files of the repository are, and the program that a suite plays."""
import pathlib
from collections.abc import Sequence

SUITE = pathlib.Path(__file__).resolve().parent.parent
TOP = SUITE.parent
CONFIGURATIONS = SUITE / "configurations"
BUILT = TOP / "crates/dq_server/out/dq_server"


def program_of(words: Sequence[str]) -> str:
    """Returns the program that a suite's command line names first; the built one if that is empty
    or absent."""
    return words[0] if words and words[0] else str(BUILT)


def configured(name: str | None) -> list[str]:
    """The words that choose a configuration of suite/configurations; none for the one that is built
    in."""
    return [] if name is None else ["--config", str(CONFIGURATIONS / f"{name}.toml")]
