"""Servers that the measurements over sockets start, the program and its peers, and what their
clients do."""
import contextlib
import json
import multiprocessing
import pathlib
import socket
import subprocess
import time
from typing import Any

from measure import CONFIGURATION, ECHO, PROGRAM, associate, store
from newtiron_suite.client import HOST, Client, Serving, free_port, until

LONGEST = 90
QUICK_ACK = getattr(socket, "TCP_QUICKACK", 12)
DCMQRSCP = """NetworkTCPPort = {port}
MaxPDUSize = 16384
MaxAssociations = 100
HostTable BEGIN
HostTable END
VendorTable BEGIN
VendorTable END
AETable BEGIN
ARCHIVE {folder} RW (4000, 1024mb) ANY
AETable END
"""


class TooLong(Exception):
    """A peer takes more time than anybody waits."""


class Unable(Exception):
    """A server does not do what is measured."""


# what a measurement of a server may raise
FAILURES = (TooLong, Unable, OSError, TypeError)


class Program:
    """The program over a store in a file."""
    name = "newtiron"

    def __init__(self, folder: pathlib.Path, configuration: pathlib.Path = CONFIGURATION) -> None:
        self.server = Serving(PROGRAM, "--config", configuration, "--new", folder / "rows.db")
        self.port = self.server.port

    def memory(self) -> float:
        return self.server.memory()

    def end(self) -> None:
        self.server.end()


class Peer:
    """A server that another command starts."""

    name: str
    child: Any

    def command(self, folder: pathlib.Path) -> list[Any]:
        """The words that start it, over this folder."""
        raise NotImplementedError

    def __init__(self, folder: pathlib.Path) -> None:
        self.port = free_port()
        self.child = subprocess.Popen(self.command(folder), stdout=subprocess.DEVNULL,
                                      stderr=subprocess.DEVNULL)
        until(self.listens)

    def listens(self) -> bool:
        with contextlib.suppress(OSError):
            socket.create_connection((HOST, self.port)).close()
            return True
        return False

    def memory(self) -> float:
        """That of the process that listens; a peer that forks has others."""
        for line in pathlib.Path(f"/proc/{self.child.pid}/status").read_text().split("\n"):
            if line.startswith("VmRSS:"):
                return int(line.split()[1]) / 1024
        return 0.0

    def end(self) -> None:
        self.child.terminate()
        self.child.wait()


class Dcmqrscp(Peer):
    name = "dcmqrscp"

    def command(self, folder: pathlib.Path) -> list[Any]:
        (folder / "images").mkdir()
        (folder / "dcmqrscp.cfg").write_text(DCMQRSCP.format(port=self.port,
                                                             folder=folder / "images"))
        return ["dcmqrscp", "-c", folder / "dcmqrscp.cfg"]


class Storescp(Peer):
    name = "storescp"

    def command(self, folder: pathlib.Path) -> list[Any]:
        (folder / "files").mkdir()
        return ["storescp", "-aet", "ARCHIVE", "-od", folder / "files", str(self.port)]


class Orthanc(Peer):
    name = "Orthanc"

    def command(self, folder: pathlib.Path) -> list[Any]:
        settings = {"DicomPort": self.port, "DicomAet": "ARCHIVE", "DicomCheckCalledAet": False,
                    "DicomServerEnabled": True,
                    "DicomAlwaysAllowEcho": True, "DicomAlwaysAllowStore": True,
                    "DicomAlwaysAllowFind": True,
                    "HttpServerEnabled": False, "StorageDirectory": str(folder / "images"),
                    "IndexDirectory": str(folder / "images"), "LimitFindResults": 0,
                    "SyncStorageArea": False, "DicomThreadsCount": 4, "Plugins": []}
        (folder / "orthanc.json").write_text(json.dumps(settings))
        return ["Orthanc", folder / "orthanc.json"]


class Octets(Peer):
    name = "octets"

    def __init__(self, _: object) -> None:
        listener = socket.create_server((HOST, 0), backlog=128)
        self.port = listener.getsockname()[1]
        self.child = multiprocessing.Process(target=self.serve, args=(listener,), daemon=True)
        self.child.start()
        listener.close()

    def end(self) -> None:
        self.child.terminate()
        self.child.join()

    @staticmethod
    def serve(listener: Any) -> None:
        while True:
            stream, _ = listener.accept()
            stream.setsockopt(socket.IPPROTO_TCP, socket.TCP_NODELAY, 1)
            with contextlib.suppress(OSError):
                while octets := stream.recv(1 << 14):
                    stream.sendall(octets)


def associated(port: int, *names: str) -> Client:
    client = Client(port)
    client.send(associate(*names))
    if client.pdu()[0] != 2:
        raise Unable("an association was not accepted")
    return client


def ask(stream: socket.socket, octets: bytes, length: int, is_prompt: bool = True) -> None:
    """Sends octets, and receives so many."""
    stream.send(octets)
    while length > 0:
        length -= len(stream.recv(length))
        stream.setsockopt(socket.IPPROTO_TCP, QUICK_ACK, is_prompt)


def answer_length(client: Any) -> int:
    """How many octets answer an echo."""
    client.send(ECHO)
    client.fill(6)
    length = 6 + int.from_bytes(client.octets[2:6], "big")
    client.receive(length)
    return length


def timed(count: int, work: Any) -> float:
    """How many a second, where the work is done so often."""
    begun = time.monotonic()
    for at in range(count):
        work(at)
        if time.monotonic() - begun > LONGEST:
            raise TooLong
    return count / (time.monotonic() - begun)


def image(at: int, studies: int) -> bytes:
    study = b"1.2.%d" % (at % studies + 1)
    return store(1, study, study + b".1", study + b".1.%d" % at, PatientName=b"DOE^%d" % at,
                 PatientID=b"P%d" % (at % studies),
                 StudyID=b"1", SeriesNumber=b"1", PixelData=bytes(700))


def acknowledge(client: Any) -> None:
    """Acknowledges at once what comes next, since a peer that writes a response in two parts waits
    for it."""
    client.socket.setsockopt(socket.IPPROTO_TCP, QUICK_ACK, True)


def stores(server: Any, count: int, studies: int) -> float:
    with associated(server.port, "CT", "study") as client:
        def one(at: int) -> None:
            client.send(image(at, studies))
            acknowledge(client)
            status = client.status()
            if status not in (0, 0xB006):
                raise Unable(f"instance {at} was not stored: {status}")
        return timed(count, one)


def answers(client: Any, query: bytes) -> int:
    """How many answers a query has, where it ends in success."""
    client.send(query)
    acknowledge(client)
    statuses = client.statuses()
    if not statuses or statuses[-1] != 0:
        raise Unable(f"a search ended with {statuses[-1:]}")
    return len(statuses) - 1
