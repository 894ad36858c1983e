"""The clients of DCMTK."""
import pathlib
import shutil
import subprocess
from typing import Any

from ..client import HOST, Serving
from ..paths import configured
from ..scenes import composed
from ..tally import Tally, skip
from .common import CT, ENTRY, PROGRAM, long_names, serves

DUMP = """
(0008,0005) CS [ISO_IR 100]
(0008,0016) UI [{ct}]
(0008,0018) UI [1.2.826.1.{at}]
(0008,0020) DA [20240705]
(0008,0030) TM [090500]
(0008,0050) SH [A100]
(0008,0060) CS [CT]
(0010,0010) PN [DOE^JANE]
(0010,0020) LO [P100]
(0020,000d) UI [1.2.826.100]
(0020,000e) UI [1.2.826.100.1]
(0020,0013) IS [{at}]
"""


def tool(name: str, server: Serving, *words: Any,
         folder: pathlib.Path | None = None) -> subprocess.CompletedProcess[str]:
    return subprocess.run([name, "-aet", "MODALITY", "-aec", "ARCHIVE", *words[:-1], HOST,
                           str(server.port), *words[-1]],
                          capture_output=True, text=True, check=False, cwd=folder, timeout=60)


def tools(tally: Tally, folder: pathlib.Path) -> None:
    needed = ["echoscu", "storescu", "findscu", "dump2dcm"]
    absent = [name for name in needed if shutil.which(name) is None]
    if absent:
        skip("tools", f"DCMTK's {', '.join(absent)} are not installed")
        return
    with Serving(PROGRAM, *configured("large"), has_console=True) as server:
        done = tool("echoscu", server, "-v", [])
        tally.check("echoscu", done.returncode == 0
                    and "Received Echo Response (Success)" in done.stdout + done.stderr, done)
        done = tool("echoscu", server, "--repeat", "50", [])
        tally.check("echoscu, 50 times", done.returncode == 0, done)
        done = subprocess.run(["echoscu", "-aec", "OTHER", HOST, str(server.port)],
                              capture_output=True, text=True, check=False)
        tally.check("echoscu with a wrong title",
                    done.returncode != 0 and "Reason" in done.stdout + done.stderr, done)
        files = []
        for at in range(1, 6):
            (folder / f"{at}.dump").write_text(DUMP.format(ct=CT, at=at))
            subprocess.run(["dump2dcm", "+te", f"{at}.dump", f"{at}.dcm"], cwd=folder, check=True,
                           capture_output=True)
            files.append(f"{at}.dcm")
        done = tool("storescu", server, "-v", files, folder=folder)
        told = done.stdout + done.stderr
        tally.check("storescu", done.returncode == 0
                    and told.count("Received Store Response (Success)") == 5, done)
        keys = [word for key in ("QueryRetrieveLevel=STUDY", "StudyInstanceUID", "PatientName=DOE*",
                                 "NumberOfStudyRelatedInstances") for word in ("-k", key)]
        done = tool("findscu", server, "-v", "-S", *keys, [])
        told = done.stdout + done.stderr
        tally.check("findscu", done.returncode == 0 and "1.2.826.100" in told and "[5 ]" in told,
                    done)
        tally.check("studies with long names", long_names(server) is not None)
        words: Any
        for words, wanted in (([], "Received Final Find Response (Success)"),
                              (["--cancel", "2"], "Received Final Find Response (Cancel:")):
            done = tool("findscu", server, "-v", "-S", *words, *keys, [])
            told = done.stdout + done.stderr
            tally.check(f"findscu {' '.join(words)}", done.returncode == 0 and wanted in told, done)
        with server.console() as desk:
            tally.check("an order",
                        desk.ask(composed(f"schedule DEMO {ENTRY.format('S1')}")[0]) == "done")
        done = tool("findscu", server, "-v", "-W", "-k", "PatientName", "-k",
                    "(0040,0100)[0].Modality=CT", [])
        told = done.stdout + done.stderr
        tally.check("findscu -W", done.returncode == 0 and "DOE^JANE" in told, done)
    if shutil.which("termscu") is None:
        skip("termscu", "it is not installed")
        return
    with Serving(PROGRAM) as server:
        tally.check("termscu stops nobody", tool("termscu", server, []) and serves(server))
