"""The octets of lines of scenes, as suites send them on one connection."""
from .model import compose

# The contexts of an association, one for each service.
SERVED = "1=echo:implicit 3=CT:explicit 5=study:explicit 7=worklist:explicit 9=mpps:explicit"


def composed(*lines: str) -> list[str]:
    """The lines of a capture that the lines of a scene compose to."""
    scene = compose.Scene()
    for line in lines:
        scene.play_line(line)
    return scene.lines


def octets_of(*lines: str) -> list[bytes]:
    """The octets of the pieces that the lines of a scene compose to."""
    return [bytes.fromhex(line.split(" ")[2]) for line in composed(*lines)]


def message(line: str, contexts: str = SERVED) -> bytes:
    """The octets of a message on connection 1."""
    return octets_of(f"associate 1 ARCHIVE MODALITY {contexts}", line)[1]


ECHO = message("echo 1 1 1")
RELEASE = octets_of("release 1")[0]
