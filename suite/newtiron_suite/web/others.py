"""Other programs: Orthanc as a client, and nginx in front."""
import contextlib
import http.client
import json
import pathlib
import re
import shutil
import socket
import ssl
import subprocess
from typing import Any

from ..client import HOST, PATIENCE, free_port, until
from ..paths import TOP
from ..tally import Tally, skip
from ..web_client import Response, Speaker
from .common import HOSPITALS, Pair, entry_octets


def orthanc(tally: Tally, folder: pathlib.Path) -> None:
    plugin = next(iter(pathlib.Path("/usr").glob("share/orthanc/plugins/libOrthancDicomWeb.so*")),
                  None)
    if shutil.which("Orthanc") is None or plugin is None:
        skip("orthanc", "Orthanc with its DICOMweb plugin is not installed")
        return
    with Pair(folder) as pair:
        pair.fill()
        port = free_port()
        servers = {name: {"Url": f"http://{HOST}:{pair.port}/{name}/rs/",
                          "HttpHeaders": {"Authorization": f"Bearer {pair.keys['NORTH']}"}}
                   for name in HOSPITALS}
        settings = {"HttpPort": port, "DicomServerEnabled": False,
                    "StorageDirectory": str(folder / "orthanc"),
                    "IndexDirectory": str(folder / "orthanc"),
                    "Plugins": [str(plugin)], "DicomWeb": {"Enable": True, "Servers": servers},
                    "AuthenticationEnabled": False}
        (folder / "orthanc.json").write_text(json.dumps(settings))
        with (folder / "told").open("wb") as told:
            child = subprocess.Popen(["Orthanc", folder / "orthanc.json"], stdout=told, stderr=told)
        try:
            tally.check("Orthanc starts",
                        until(lambda: orthanc_answers(port, "GET",
                                                      "/dicom-web/servers") is not None, 30))
            for words, uids in (({"PatientName": "DOE*"}, ["1.2.0", "1.2.1", "1.2.2"]),
                                ({"PatientID": "P1"}, ["1.2.1"]),
                                ({"StudyDate": "20240702-", "limit": "1"}, ["1.2.1"]),
                                ({"PatientName": "NOBODY"}, [])):
                got = orthanc_answers(port, "POST", "/dicom-web/servers/NORTH/qido",
                                      {"Uri": "/studies", "Arguments": words})
                found = [one.get("0020,000d", one.get("0020000D", {})).get("Value") for one in got
                         or []]
                is_found = [one[0] if isinstance(one, list) else one for one in found] == uids
                tally.check(f"Orthanc asks for {words}", got is not None and is_found, got,
                            (folder / "told").read_text(errors="replace")[-900:])
            with_key, without_key = (orthanc_answers(port, "POST",
                                                     f"/dicom-web/servers/{name}/qido",
                                                     {"Uri": "/studies"})
                                     for name in ("NORTH", "SOUTH"))
            tally.check("Orthanc with another hospital's key",
                        with_key is not None and without_key is None, without_key)
        finally:
            child.terminate()
            child.wait()


# What a proxy says of its client, and the address that it says last; the examples of Forwarded are
# those of RFC 7239 sections 4, 6.1 and 7.1.
FORWARDED = [
    (["X-Forwarded-For: 192.0.2.43"], "192.0.2.43"),
    (["X-Forwarded-For: 198.51.100.1, 192.0.2.43"], "192.0.2.43"),
    (["X-Forwarded-For: 198.51.100.1,192.0.2.43 "], "192.0.2.43"),
    (["X-Forwarded-For: 198.51.100.1", "X-Forwarded-For: 192.0.2.43"], "192.0.2.43"),
    (["x-forwarded-for: 2001:db8:cafe::17"], "2001:db8:cafe::17"),
    (["X-Forwarded-For: 2001:DB8:CAFE:0:0:0:0:17"], "2001:db8:cafe::17"),
    (["X-Forwarded-For: 192.0.2.43", "Forwarded: for=198.51.100.17"], "192.0.2.43"),
    (['Forwarded: For="[2001:db8:cafe::17]:4711"'], "2001:db8:cafe::17"),
    (["Forwarded: for=192.0.2.60;proto=http;by=203.0.113.43"], "192.0.2.60"),
    (["Forwarded: for=192.0.2.43, for=198.51.100.17"], "198.51.100.17"),
    (['Forwarded: for=192.0.2.43, for="[2001:db8:cafe::17]"'], "2001:db8:cafe::17"),
    (["Forwarded: by=203.0.113.43;for=198.51.100.17:8080"], "198.51.100.17"),
    (['Forwarded: for="_gazonk"'], None), (["Forwarded: for=unknown"], None),
    (["Forwarded: by=203.0.113.43"], None), (["Forwarded: 192.0.2.43"], None),
    (["Forwarded: for=192.0.2.43, for=unknown"], None),
    (["X-Forwarded-For: unknown"], None), (["X-Forwarded-For:"], None),
    (["X-Forwarded-For: 192.0.2.43, "], None), (["X-Forwarded-For: 192.0.2.256"], None),
    (["X-Forwarded-For: 192.0.2.43 x"], None), (["X-Forwarded-For: viewer.example"], None),
    (["X-Forwarded-For: 192.0.2.43\xff"], None), ([], None),
]


def proxies(tally: Tally, folder: pathlib.Path) -> None:
    log = folder / "log"
    with Pair(folder, "--log-file", log, "--web-proxy", HOST) as pair:
        pair.fill()
        forwarded(tally, pair, log, is_believed=True)
        begin = len(web_lines(log))
        with pair.connect() as speaker:
            for fields, _ in FORWARDED:
                speaker.ask("GET", "/health", fields=fields)
            speaker.send(b"GET /health HTTP/1.1\r\nX-Forwarded-For: 192.0.2.43\r\nx\r\n\r\n")
            speaker.rest()
        until(lambda: len(web_lines(log)) > begin + len(FORWARDED), 5)
        lines = web_lines(log)[begin:]
        wanted = [*[address for _, address in FORWARDED], None]
        found = [re.search(r":\d+(?: for (\S+))? - (?:GET|-) - \S+ (?:200|400) ms", line)[1]
                 for line in lines]
        tally.check("each request of a connection has its own address", found == wanted, found)
        held = [pair.connect() for _ in range(20)]
        told = [speaker.ask("GET", "/health").status for speaker in held]
        tally.check("a proxy may connect as often as there is room", told == [200] * 20, told)
        others = [Speaker(pair.port, source="127.0.0.2") for _ in range(16)]
        told = [speaker.ask("GET", "/health").status for speaker in others]
        tally.check("others may connect beside it", told == [200] * 16, told)
        with Speaker(pair.port, source="127.0.0.2") as one_more:
            tally.check("but not more often than they may", one_more.is_closed())
        pair.is_right(tally, "proxies")
    for words in (["--web-proxy", "127.0.0.2"], list[str]()):
        log.unlink()
        with Pair(folder, "--log-file", log, *words) as pair:
            forwarded(tally, pair, log, is_believed=False)


def web_lines(log: pathlib.Path) -> list[str]:
    """The lines of requests in a log."""
    return [line for line in log.read_text().split("\n")[:-1] if " - web " in line]


def forwarded(tally: Tally, pair: Pair, log: pathlib.Path, is_believed: bool) -> None:
    """The lines of requests for which a peer says an address."""
    for fields, address in FORWARDED:
        begin = len(web_lines(log))
        told = pair.ask("GET", "/NORTH/counts", "NORTH", fields=fields)
        tally.check(f"it is answered: {fields}", told.status == 200, told.head)
        until(lambda: len(web_lines(log)) > begin, 5)
        line = web_lines(log)[-1]
        words = f" for {address}" if address and is_believed else ""
        tally.check(f"the address of {fields}", re.fullmatch(
            rf"\S+ - web {re.escape(HOST)}:\d+{re.escape(words)} - GET NORTH /counts 200 ms \d+",
            line), line)


def orthanc_answers(port: int, method: str, path: str, body: Any = None) -> Any:
    """What Orthanc answers, read from JSON; None where it refuses."""
    with contextlib.suppress(OSError, http.client.HTTPException):
        connection = http.client.HTTPConnection(HOST, port, timeout=10)
        connection.request(method, path, json.dumps(body) if body is not None else None)
        told = connection.getresponse()
        text = told.read()
        return json.loads(text or b"[]") if told.status == 200 else None
    return None


def nginx_configuration() -> str:
    """The configuration that docs/OPERATING.md shows."""
    text = (TOP / "docs" / "OPERATING.md").read_text()
    return re.search(r"```nginx\n(.*?)```", text, re.S)[1]


def nginx(tally: Tally, folder: pathlib.Path) -> None:
    if any(shutil.which(name) is None for name in ("nginx", "openssl")):
        skip("nginx", "nginx and openssl are not installed")
        return
    with Pair(folder, "--web-proxy", HOST, web_host="dicom.hospital.example") as pair:
        pair.fill()
        port = free_port()
        subprocess.run(["openssl", "req", "-x509", "-newkey", "rsa:2048", "-nodes", "-days",
                        "2", "-subj",
                        "/CN=dicom.hospital.example",
                        "-keyout", folder / "server.key", "-out", folder / "server.pem"],
                       check=True, capture_output=True)
        text = nginx_configuration().replace("127.0.0.1:8042", f"127.0.0.1:{pair.port}")
        text = text.replace("listen 443 ssl", f"listen 127.0.0.1:{port} ssl")
        text = re.sub(r"ssl_certificate .*;", f"ssl_certificate {folder}/server.pem;", text)
        text = re.sub(r"ssl_certificate_key .*;", f"ssl_certificate_key {folder}/server.key;", text)
        paths = "".join(f"{name}_temp_path {folder}/{name};\n"
                        for name in ("client_body", "proxy", "fastcgi", "uwsgi", "scgi"))
        before = f"pid {folder}/pid;\nerror_log {folder}/error.log;\ndaemon off;\nevents {{}}\n"
        (folder / "nginx.conf").write_text(f"{before}http {{\naccess_log off;\n{paths}{text}\n}}\n")
        child = subprocess.Popen(["nginx", "-p", folder, "-c", folder / "nginx.conf"],
                                 stdout=subprocess.DEVNULL,
                                 stderr=subprocess.DEVNULL)
        try:
            context = ssl.create_default_context(cafile=str(folder / "server.pem"))

            def ask(method: str, path: str, name: str | None = None,
                    body: bytes | None = None) -> Response | None:
                with contextlib.closing(socket.create_connection((HOST, port),
                                                                 PATIENCE)) as plain, \
                        context.wrap_socket(
                        plain, server_hostname="dicom.hospital.example") as stream:
                    client = Speaker.__new__(Speaker)
                    client.socket, client.octets, client.port = stream, b"", port
                    client.send(client.request(method, path, pair.keys.get(name), body,
                                               ["Connection: close",
                                                "Origin: https://dicom.hospital.example"],
                                               host="dicom.hospital.example"))
                    return client.response()
            tally.check("nginx starts", until(lambda: (folder / "pid").exists()
                                              and (folder / "pid").read_text(), 10))
            for method, path, name, body, status in (
                    ("GET", "/", None, None, 200), ("GET", "/page.js", None, None, 200),
                    ("GET", "/NORTH/rs/studies", "NORTH", None, 200),
                    ("GET", "/NORTH/rs/studies", "SOUTH", None, 401),
                    ("POST", "/NORTH/worklist", "NORTH", entry_octets("N1"),
                     201),
                    # (nginx takes it for a path of SOUTH, and passes it on as it is)
                    ("GET", "/NORTH/..%2FSOUTH/counts", "SOUTH", None, 400),
                    ("GET", "/metrics", "*", None, (403, 404)),
                    ("POST", "/backup", "*", b"/x", (403, 404))):
                told = ask(method, path, name, body)
                tally.check(f"nginx: {method} {path}",
                            told is not None and told.status in (status if isinstance(status, tuple)
                                                                 else (status,)),
                            told and told.head)
            pair.expected("POST", "/NORTH/worklist", "NORTH", body=entry_octets("N1"))
            pair.is_right(tally, "nginx")
        finally:
            child.terminate()
            child.wait()
