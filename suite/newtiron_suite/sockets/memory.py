"""Memory that is refused while the console answers."""
import itertools
import pathlib
import tempfile

from ..client import Serving, until
from ..paths import configured
from ..refusing import made_library
from ..scenes import composed
from ..tally import Tally
from .common import ENTRY, PROGRAM, serves


def memory(tally: Tally, _: object) -> None:
    """Each allocation refused in turn while a line is answered: its client is let go, or answered
    all the same, and the service goes on. Only where an order finds no memory while it is carried
    out does the service end, and says so."""
    schedule = composed(f"schedule NORTH {ENTRY.format('S1')}")[0]
    counts = "NORTH studies 0 series 0 images 0 entries 0 steps 0"
    with tempfile.TemporaryDirectory() as room:
        library = made_library(pathlib.Path(room), "refuse_alloc")
        for name, line, answer in (("search", "studies NORTH", "end 0"),
                                   ("report", "report", counts), ("order", schedule, "done")):
            let_go = ended = 0
            for number in itertools.count(1):
                folder = pathlib.Path(tempfile.mkdtemp(dir=room))
                with Serving(PROGRAM, *configured("hospitals"), has_console=True, environment={
                        "LD_PRELOAD": library, "REFUSE_ALLOC": number,
                        "REFUSE_ALLOC_WHILE": folder / "counted",
                        "REFUSE_ALLOC_MARK": folder / "refused"}) as server:
                    desk = server.console()
                    is_let_in = desk.ask("keys") == "refused no web front"
                    (folder / "counted").touch()
                    told = desk.ask(line)
                    (folder / "counted").unlink()
                    is_refused = (folder / "refused").exists()
                    let_go += not told
                    is_ended = name == "order" and not told and until(
                        lambda: not server.is_running(), 0.2)
                    tally.check(f"a {name} with allocation {number} refused",
                                is_let_in and told in ((answer, "") if is_refused else (answer,))
                                and (server.errors() == b"fault 1\n" if is_ended
                                     else serves(server, "CT1")), told, server.errors())
                    ended += is_ended
                if not is_refused:
                    break
            tally.check(f"{name}: clients that were let go", let_go >= ended + 3, let_go, ended)
