#!/usr/bin/env python3
"""Schedules a worklist item on a server that was started with `--console PATH`, withdraws one,
prints what each institution keeps, or has the server back up its store.

This file is all that is needed: copy it anywhere that has Python 3.9. It prints the server's
answer, and exits with 0 for `done` or a report, 1 for a refusal, and 2 if nothing was sent or there
was no answer.

  send_entry.py --console PATH INSTITUTION [FILE]            schedule the item in FILE, or on
                                                             standard input
  send_entry.py --console PATH INSTITUTION --withdraw ID     withdraw the item with this Scheduled
                                                             Procedure Step ID
  send_entry.py --console PATH INSTITUTION --watch FOLDER    schedule every file that appears in
                                                             FOLDER, until stopped
  send_entry.py --console PATH --report                      print how much each institution keeps
  send_entry.py --console PATH --backup FILE                 copy the server's store to FILE, which
                                                             must not exist

An item is a DICOM file (PS3.10, Implicit or Explicit VR Little Endian, such as the `.wl` files of
wlmscpfs), or lines with one attribute each, by its keyword of PS3.6. A sequence has its items in
braces, and `#` begins a comment:

    PatientName = DOE^JANE
    PatientID = P100
    StudyInstanceUID = 1.2.100
    RequestedProcedureID = R100
    ScheduledProcedureStepSequence = {
        Modality = CT
        ScheduledStationAETitle = CT1
        ScheduledProcedureStepStartDate = 20240705
        ScheduledProcedureStepStartTime = 0900
        ScheduledProcedureStepID = S100
    }

`--watch` schedules each file once. It moves the file to FOLDER/done, or to FOLDER/refused with the
reason in NAME.reason. To try a refused file again, move it back. While no server answers, files
stay where they are, and are sent when one does.

  Write elsewhere, then rename. Write a file under a name that begins with a dot, or in another
  folder on the same disk, and rename it into FOLDER when it is complete. Names that begin with a
  dot are ignored. As a second guard, a file is taken only when it has not changed for a second.

  After an interruption. If this program or the server stops before the answer to a file arrives,
  the file stays in FOLDER and is sent again. If the item had been kept, the answer is then `refused
  3`, and the file goes to FOLDER/refused. Its reason says when it was first sent: the item is most
  likely scheduled, so look at the worklist and delete the file.
"""
from __future__ import annotations

import argparse
import collections
import contextlib
import difflib
import fcntl
import hashlib
import json
import os
import pathlib
import re
import signal
import socket
import sys
import time
from typing import Any

# Tags of PS3.6 section 6 with their value representations and keywords, group by group.
DICTIONARY_TEXT = """
0008: 0005 CS SpecificCharacterSet 0008 CS ImageType 0012 DA InstanceCreationDate
    0013 TM InstanceCreationTime 0014 UI InstanceCreatorUID 0016 UI SOPClassUID
    0018 UI SOPInstanceUID 0020 DA StudyDate 0021 DA SeriesDate 0022 DA AcquisitionDate
    0023 DA ContentDate 002A DT AcquisitionDateTime 0030 TM StudyTime 0031 TM SeriesTime
    0032 TM AcquisitionTime 0033 TM ContentTime 0050 SH AccessionNumber 0052 CS QueryRetrieveLevel
    0054 AE RetrieveAETitle 0056 CS InstanceAvailability 0060 CS Modality 0061 CS ModalitiesInStudy
    0062 UI SOPClassesInStudy 0064 CS ConversionType 0070 LO Manufacturer 0080 LO InstitutionName
    0081 ST InstitutionAddress 0090 PN ReferringPhysicianName 0100 SH CodeValue
    0102 SH CodingSchemeDesignator 0103 SH CodingSchemeVersion 0104 LO CodeMeaning
    0201 SH TimezoneOffsetFromUTC 1010 SH StationName 1030 LO StudyDescription
    1032 SQ ProcedureCodeSequence 103E LO SeriesDescription 1040 LO InstitutionalDepartmentName
    1048 PN PhysiciansOfRecord 1050 PN PerformingPhysicianName 1060 PN NameOfPhysiciansReadingStudy
    1070 PN OperatorsName 1080 LO AdmittingDiagnosesDescription 1090 LO ManufacturerModelName
    1110 SQ ReferencedStudySequence 1111 SQ ReferencedPerformedProcedureStepSequence
    1115 SQ ReferencedSeriesSequence 1120 SQ ReferencedPatientSequence
    1140 SQ ReferencedImageSequence 1150 UI ReferencedSOPClassUID 1155 UI ReferencedSOPInstanceUID
    1199 SQ ReferencedSOPSequence 2111 ST DerivationDescription 2112 SQ SourceImageSequence
0010: 0010 PN PatientName 0020 LO PatientID 0021 LO IssuerOfPatientID 0030 DA PatientBirthDate
    0032 TM PatientBirthTime 0040 CS PatientSex 1000 LO OtherPatientIDs 1001 PN OtherPatientNames
    1010 AS PatientAge 1020 DS PatientSize 1030 DS PatientWeight 2000 LO MedicalAlerts
    2110 LO Allergies 2160 SH EthnicGroup 2180 SH Occupation 21B0 LT AdditionalPatientHistory
    21C0 US PregnancyStatus 4000 LT PatientComments
0018: 0015 CS BodyPartExamined 0050 DS SliceThickness 0060 DS KVP 0080 DS RepetitionTime
    0081 DS EchoTime 1000 LO DeviceSerialNumber 1020 LO SoftwareVersions 1030 LO ProtocolName
    1151 IS XRayTubeCurrent 5100 CS PatientPosition
0020: 000D UI StudyInstanceUID 000E UI SeriesInstanceUID 0010 SH StudyID 0011 IS SeriesNumber
    0012 IS AcquisitionNumber 0013 IS InstanceNumber 0032 DS ImagePositionPatient
    0037 DS ImageOrientationPatient 0052 UI FrameOfReferenceUID 0060 CS Laterality
    1041 DS SliceLocation 1206 IS NumberOfStudyRelatedSeries 1208 IS NumberOfStudyRelatedInstances
    1209 IS NumberOfSeriesRelatedInstances 4000 LT ImageComments
0028: 0002 US SamplesPerPixel 0004 CS PhotometricInterpretation 0008 IS NumberOfFrames 0010 US Rows
    0011 US Columns 0030 DS PixelSpacing 0100 US BitsAllocated 0101 US BitsStored 0102 US HighBit
    0103 US PixelRepresentation 1050 DS WindowCenter 1051 DS WindowWidth 1052 DS RescaleIntercept
    1053 DS RescaleSlope
0032: 1032 PN RequestingPhysician 1033 LO RequestingService 1060 LO RequestedProcedureDescription
    1064 SQ RequestedProcedureCodeSequence
0038: 0010 LO AdmissionID 0050 LO SpecialNeeds 0300 LO CurrentPatientLocation 0500 LO PatientState
0040: 0001 AE ScheduledStationAETitle 0002 DA ScheduledProcedureStepStartDate
    0003 TM ScheduledProcedureStepStartTime 0004 DA ScheduledProcedureStepEndDate
    0005 TM ScheduledProcedureStepEndTime 0006 PN ScheduledPerformingPhysicianName
    0007 LO ScheduledProcedureStepDescription 0008 SQ ScheduledProtocolCodeSequence
    0009 SH ScheduledProcedureStepID 0010 SH ScheduledStationName
    0011 SH ScheduledProcedureStepLocation 0012 LO PreMedication
    0020 CS ScheduledProcedureStepStatus 0100 SQ ScheduledProcedureStepSequence
    0220 SQ ReferencedNonImageCompositeSOPInstanceSequence 0241 AE PerformedStationAETitle
    0242 SH PerformedStationName 0243 SH PerformedLocation 0244 DA PerformedProcedureStepStartDate
    0245 TM PerformedProcedureStepStartTime 0250 DA PerformedProcedureStepEndDate
    0251 TM PerformedProcedureStepEndTime 0252 CS PerformedProcedureStepStatus
    0253 SH PerformedProcedureStepID 0254 LO PerformedProcedureStepDescription
    0255 LO PerformedProcedureTypeDescription 0260 SQ PerformedProtocolCodeSequence
    0270 SQ ScheduledStepAttributesSequence 0275 SQ RequestAttributesSequence
    0280 ST CommentsOnThePerformedProcedureStep
    0281 SQ PerformedProcedureStepDiscontinuationReasonCodeSequence 0340 SQ PerformedSeriesSequence
    1001 SH RequestedProcedureID 1002 LO ReasonForTheRequestedProcedure
    1003 SH RequestedProcedurePriority 1004 LO PatientTransportArrangements
    1400 LT RequestedProcedureComments 2016 LO PlacerOrderNumberImagingServiceRequest
    2017 LO FillerOrderNumberImagingServiceRequest 2400 LT ImagingServiceRequestComments
7FE0: 0010 OW PixelData
"""
# Value representations with lengths of two octets and of four (PS3.5 section 7.1.2), and those that
# are padded by a space.
SHORT = set("AE AS AT CS DA DS DT FD FL IS LO LT PN SH SL SS ST TM UI UL US".split())
LONG = set("OB OD OF OL OV OW SQ SV UC UN UR UT UV".split())
TEXT = set("AE AS CS DA DS DT IS LO LT PN SH ST TM UC UR UT".split())
UNDEFINED, DEEPEST = 0xFFFFFFFF, 16
ITEM, ITEM_END, SEQUENCE_END = (0xFFFE, 0xE000), (0xFFFE, 0xE00D), (0xFFFE, 0xE0DD)
TRANSFER_SYNTAX = (0x0002, 0x0010)
# Transfer syntaxes that are taken, with whether they are explicit, and others by name (PS3.5 annex
# A).
LITTLE_ENDIAN = {"1.2.840.10008.1.2": False, "1.2.840.10008.1.2.1": True}
OTHER_SYNTAXES = {"1.2.840.10008.1.2.2": "Explicit VR Big Endian",
                  "1.2.840.10008.1.2.1.99": "Deflated Explicit VR Little Endian"}
LONGEST_ENTRY, LONGEST_FILE = 1_048_576, 4_194_304
# Seconds: how long an answer may take, and from one look at a folder to the next.
PATIENCE, LOOK_EVERY = 60, 1
MEANINGS = {"refused 1": "the data set is too long, or cannot be read",
            "refused 2": "the entry is not complete",
            "refused 3": "an entry with this Scheduled Procedure Step ID is kept",
            "refused 4": "the institution keeps as many as it may",
            "refused 5": "there is no such entry",
            "refused 6": "no institution has the name",
            "bad line": "the server does not understand the order",
            "refused taken": "there is something at the path, or at that of its log",
            "refused full": "the disk is full",
            "refused failed": "there can be no file at the path, or the disk failed",
            "refused memory": "the server has no memory for it",
            "refused no store": "the server keeps its rows in memory alone"}


def dictionary() -> dict[str, tuple[tuple[int, int], str]]:
    """The keywords, each with its tag and value representation."""
    found, group = {}, 0
    words = DICTIONARY_TEXT.split()
    while words:
        word = words.pop(0)
        if word.endswith(":"):
            group = int(word[:-1], 16)
        else:
            vr, keyword = words.pop(0), words.pop(0)
            found[keyword] = ((group, int(word, 16)), vr)
    return found


KEYWORDS = dictionary()
VRS = dict(KEYWORDS.values())


class NotTaken(Exception):
    """Why something is no entry, in words."""


class Word(str):
    """A word that knows the line that it stands on."""

    line: int

    def __new__(cls, text: str, line: int) -> Word:
        word = super().__new__(cls, text)
        word.line = line
        return word


def not_understood(word: Word, expected: str) -> NotTaken:
    """The error of a word in readable lines, with what was expected in its place."""
    shown = str(word) if len(word) <= 60 else f"{word[:60]}.."
    return NotTaken(f"line {word.line}: '{shown}': {expected}")


# Readable lines.

def words_of(text: str) -> collections.deque[Word]:
    """The words of readable lines: `Keyword=value`, and braces."""
    words = collections.deque()
    for number, line in enumerate(text.split("\n"), 1):
        line = line.strip()
        key, equals, value = (part.strip() for part in line.partition("="))
        if not line or line.startswith("#"):
            continue
        if line in ("}", "} {", "{"):
            parts = line.split()
        elif value == "{":
            parts = [f"{key}=", "{"]
        else:
            parts = [key + equals + value]
        words.extend(Word(part, number) for part in parts)
    return words


def tag_of(word: Word) -> tuple[tuple[int, int], str]:
    """The tag and the value representation that a word names."""
    key = word.partition("=")[0]
    if key in KEYWORDS:
        return KEYWORDS[key]
    found = re.fullmatch("([0-9A-Fa-f]{4})([0-9A-Fa-f]{4}):([A-Z]{2})", key)
    if not found:
        close = difflib.get_close_matches(key, list(KEYWORDS), 1)
        meant = f" (is it {close[0]}?)" if close else ""
        raise not_understood(word, "Keyword=value was expected, with a keyword that is "
                                   f"known{meant}, or GGGGEEEE:VR=value")
    if found[3] not in SHORT | LONG:
        raise not_understood(word, f"{found[3]} is no value representation")
    return (int(found[1], 16), int(found[2], 16)), found[3]


def octets_of(word: Word, text: str) -> bytes:
    """The octets that a value stands for: its text, `0xHEX`, or `zeros:COUNT`."""
    if text.startswith("0x"):
        if not re.fullmatch("([0-9A-Fa-f]{2})*", text[2:]):
            raise not_understood(word, "hexadecimal digits were expected, two for each octet")
        return bytes.fromhex(text[2:])
    if text.startswith("zeros:"):
        if not re.fullmatch("[0-9]{1,7}", text[6:]) or int(text[6:]) > LONGEST_ENTRY:
            raise not_understood(word, f"a count of octets up to {LONGEST_ENTRY} was expected "
                                       "after zeros:")
        return bytes(int(text[6:]))
    return text.encode()


def read_items(words: collections.deque[Word], name: str, depth: int) -> list[Any]:
    """The items in braces that follow a sequence's name."""
    found = []
    while words and words[0] == "{":
        brace = words.popleft()
        if depth > DEEPEST:
            raise not_understood(brace, f"more than {DEEPEST} sequences are in one another")
        found.append(read_words(words, depth))
        if not words:
            raise not_understood(brace, f"this brace of {name} is not closed")
        words.popleft()
    return found


def read_words(words: collections.deque[Word], depth: int = 0) -> list[Any]:
    """The elements that words spell, up to a closing brace or the end."""
    found = {}
    while words and words[0] != "}":
        word = words.popleft()
        name, equals, text = word.partition("=")
        if word == "{":
            raise not_understood(word, "items stand after the keyword of a sequence alone")
        tag, vr = tag_of(word)
        if not equals:
            raise not_understood(word, "an = was expected after the keyword, with a value or "
                                       "nothing")
        if tag in found:
            raise not_understood(word, f"{name} stands a second time")
        if vr == "SQ" and text:
            raise not_understood(word, "items in braces, which stand apart, were expected after "
                                       f"{name}=")
        found[tag] = (vr, read_items(words, name, depth + 1) if vr == "SQ"
                      else octets_of(word, text))
    return [(tag, *found[tag]) for tag in sorted(found)]


def readable_entry(octets: bytes) -> list[Any]:
    """The elements that readable lines spell."""
    try:
        words = words_of(octets.decode("utf-8-sig"))
    except UnicodeDecodeError:
        raise NotTaken("it is neither a DICOM file (PS3.10) nor text in UTF-8") from None
    if not words:
        raise NotTaken("it is empty")
    found = read_words(words)
    if words:
        raise not_understood(words[0], "no brace is open here")
    return found


# DICOM files.

class Octets:
    """Octets of a file that are taken from the front, up to an end."""

    def __init__(self, data: bytes, at: int, end: int) -> None:
        self.data, self.at, self.end = data, at, end

    def fault(self, words: str) -> NotTaken:
        return NotTaken(f"octet {self.at} of the DICOM file: {words}")

    def take(self, count: int) -> bytes:
        if self.end - self.at < count:
            raise self.fault("it ends too early")
        self.at += count
        return self.data[self.at - count:self.at]

    def number(self, width: int) -> int:
        return int.from_bytes(self.take(width), "little")

    def tag(self) -> tuple[int, int]:
        return self.number(2), self.number(2)

    def take_nothing(self) -> None:
        """The length of a delimiter."""
        if self.number(4):
            raise self.fault("a delimiter has a length")

    def within(self, length: int) -> Octets:
        self.take(length)
        return Octets(self.data, self.at - length, self.at)

    def is_over(self) -> bool:
        return self.at == self.end


def read_elements(octets: Octets, is_explicit: bool, is_delimited: bool = False,
                  depth: int = 0) -> list[Any]:
    """The elements of a data set (PS3.5 section 7.1), or of an item up to its delimiter; no group
    lengths."""
    found, last = [], (-1, 0)
    while is_delimited or not octets.is_over():
        tag = octets.tag()
        if is_delimited and tag == ITEM_END:
            octets.take_nothing()
            break
        if tag[0] == 0xFFFE or tag <= last:
            raise octets.fault(f"the element {shown(tag)} is out of order")
        last = tag
        vr, value = read_element(octets, tag, is_explicit, depth)
        if tag[1]:
            found.append((tag, vr, value))
    return found


def read_element(octets: Octets, tag: tuple[int, int], is_explicit: bool,
                 depth: int) -> tuple[str, Any]:
    """The value representation of an element whose tag was taken, and its octets or items."""
    known = VRS.get(tag)
    spelled = octets.take(2).decode("latin-1") if is_explicit else None
    if is_explicit and spelled not in SHORT | LONG:
        raise octets.fault(f"{shown(tag)} has no value representation")
    is_open = spelled in (None, "SQ", "UN")
    if known == "SQ" and not is_open or known not in (None, "SQ") and spelled == "SQ":
        raise octets.fault(f"{shown(tag)} is {spelled} there, and {known} in the standard")
    if spelled in LONG:
        octets.take(2)
    length = octets.number(2 if spelled in SHORT else 4)
    if length == UNDEFINED and not (is_open and known in (None, "SQ")):
        raise octets.fault(f"{shown(tag)} has no length, and is no sequence")
    if length != UNDEFINED and "SQ" not in (known, spelled):
        return known or spelled or "UN", octets.take(length)
    if depth == DEEPEST:
        raise octets.fault(f"more than {DEEPEST} sequences are in one another")
    # (a sequence in UN is in Implicit, PS3.5 section 6.2.2)
    is_delimited = length == UNDEFINED
    inner = octets if is_delimited else octets.within(length)
    return "SQ", read_file_items(inner, spelled == "SQ", is_delimited, depth + 1)


def read_file_items(octets: Octets, is_explicit: bool, is_delimited: bool, depth: int) -> list[Any]:
    """The items of a sequence (PS3.5 section 7.5)."""
    found = []
    while is_delimited or not octets.is_over():
        tag = octets.tag()
        if is_delimited and tag == SEQUENCE_END:
            octets.take_nothing()
            break
        if tag != ITEM:
            raise octets.fault(f"an item was expected in place of {shown(tag)}")
        length = octets.number(4)
        inner = octets if length == UNDEFINED else octets.within(length)
        found.append(read_elements(inner, is_explicit, length == UNDEFINED, depth))
    return found


def file_entry(octets: bytes) -> list[Any]:
    """The elements of the data set of a DICOM file (PS3.10 section 7)."""
    rest, syntax = Octets(octets, 132, len(octets)), None
    while octets[rest.at:rest.at + 2] == b"\x02\x00":
        tag = rest.tag()
        vr, value = read_element(rest, tag, True, 0)
        if tag == TRANSFER_SYNTAX and vr != "SQ":
            syntax = value.rstrip(b"\0 ").decode("latin-1")
    if syntax is None:
        raise NotTaken("its file meta information names no transfer syntax")
    if syntax not in LITTLE_ENDIAN:
        raise NotTaken(f"its transfer syntax is {OTHER_SYNTAXES.get(syntax, syntax)}: only "
                       "Implicit and Explicit VR Little "
                       "Endian are taken")
    return read_elements(rest, LITTLE_ENDIAN[syntax])


# Orders.

def shown(tag: tuple[int, int]) -> str:
    return f"({tag[0]:04X},{tag[1]:04X})"


def little(number: int, width: int) -> bytes:
    return number.to_bytes(width, "little")


def spelled(elements: list[Any]) -> bytes:
    """The octets of a data set in Explicit VR Little Endian, with defined lengths."""
    out = b""
    for tag, vr, value in elements:
        if vr == "SQ":
            items = [spelled(item) for item in value]
            value = b"".join(little(0xFFFE, 2) + little(0xE000, 2) + little(len(item), 4) + item
                             for item in items)
        value += (b" " if vr in TEXT else b"\0") * (len(value) % 2)
        out += little(tag[0], 2) + little(tag[1], 2)
        if vr in SHORT and len(value) <= 65534:
            out += vr.encode() + little(len(value), 2) + value
        else:
            # (a value that is too long for its representation is UN, PS3.5 section 6.2.2)
            out += ("UN" if vr in SHORT else vr).encode() + bytes(2) + little(len(value), 4) + value
    return out


def schedule_line(institution: str, octets: bytes) -> str:
    """The console's line that schedules the entry of a file."""
    if len(octets) > LONGEST_FILE:
        raise NotTaken(f"it has {len(octets)} octets or more, which no entry has")
    entry = spelled(file_entry(octets) if octets[128:132] == b"DICM" else readable_entry(octets))
    if len(entry) > LONGEST_ENTRY:
        raise NotTaken(f"its data set has {len(entry)} octets, and the server takes "
                       f"{LONGEST_ENTRY} at most")
    return f"schedule {institution} {entry.hex() or '-'}"


class Console:
    """A call of the server's console, for one order."""

    def __init__(self, path: str) -> None:
        self.socket = socket.socket(socket.AF_UNIX)
        self.socket.settimeout(PATIENCE)
        try:
            self.socket.connect(path)
        except OSError as error:
            self.socket.close()
            raise ConnectionError(f"no server is at {path} ({error.strerror or error})") from None

    def __enter__(self) -> Console:
        return self

    def __exit__(self, *_: Any) -> None:
        self.socket.close()

    def answer_to(self, line: str) -> str:
        """The server's answer; an OSError if none comes."""
        with contextlib.suppress(BrokenPipeError):
            self.socket.sendall(line.encode() + b"\n")
        answer = b""
        while not answer.endswith(b"\n"):
            more = self.socket.recv(4096)
            if not more:
                raise ConnectionResetError("the server closed the console without an answer")
            answer += more
        return answer.decode("latin-1").strip()

    def report(self) -> str:
        """The server's report, a line for each institution; an OSError if none comes."""
        self.socket.sendall(b"report\n")
        # (the server closes the console after its answers to a caller that sends no more)
        self.socket.shutdown(socket.SHUT_WR)
        lines = b"".join(iter(lambda: self.socket.recv(4096), b""))
        if not lines.endswith(b"\n"):
            raise ConnectionResetError("the server closed the console without a report")
        return lines.decode("latin-1")


def in_words(answer: str) -> str:
    """An answer with its meaning."""
    meaning = MEANINGS.get(answer)
    return f"{answer}: {meaning}" if meaning else answer


def status_of(answer: str) -> int:
    return {"done": 0, "refused": 1}.get(answer.partition(" ")[0], 2)


def told(words: object) -> None:
    print(words, file=sys.stderr, flush=True)


# A folder that is watched.

class Watch:
    """A folder whose files are scheduled, one after the other."""

    def __init__(self, folder: str, console: str, institution: str) -> None:
        self.folder, self.console, self.institution = pathlib.Path(folder), console, institution
        self.done, self.refused = self.folder / "done", self.folder / "refused"
        # tells the file that was sent last, while no answer of it is kept
        self.mark = self.folder / ".sent"
        self.is_lost = False

    def run(self) -> None:
        handle = os.open(self.folder, os.O_RDONLY)
        try:
            fcntl.flock(handle, fcntl.LOCK_EX | fcntl.LOCK_NB)
        except BlockingIOError:
            raise NotTaken(f"{self.folder} is watched already") from None
        for place in (self.done, self.refused):
            place.mkdir(exist_ok=True)
        before = {}
        while True:
            found = self.files()
            for name, state in found.items():
                if before.get(name) == state and not self.take(name, state):
                    break
            before = found
            time.sleep(LOOK_EVERY)

    def files(self) -> dict[str, tuple[int, int, int] | None]:
        """The files of the folder, each with what changes when it is written. The one that was sent
        last comes first."""
        sent, found = self.marked().get("name"), {}
        for entry in os.scandir(self.folder):
            if not entry.name.startswith(".") and entry.is_file(follow_symlinks=False):
                found[entry.name] = self.state_of(entry.name)
        return {name: found[name] for name in sorted(found, key=lambda name: (name != sent, name))}

    def state_of(self, name: str) -> tuple[int, int, int] | None:
        """What changes when a file is written or replaced; None if it is not there."""
        with contextlib.suppress(FileNotFoundError):
            state = (self.folder / name).lstat()
            return state.st_ino, state.st_size, state.st_mtime_ns
        return None

    def take(self, name: str, state: tuple[int, int, int] | None) -> bool:
        """Schedules a file and moves it. The answer is whether there was one of the server, or none
        was needed."""
        try:
            with (self.folder / name).open("rb") as file:
                octets = file.read(LONGEST_FILE + 1)
            line = schedule_line(self.institution, octets)
        except FileNotFoundError:
            return True
        except OSError as error:
            self.move(name, state, self.refused, f"it cannot be read: {error.strerror}")
            return True
        except (NotTaken, MemoryError) as why:
            self.move(name, state, self.refused, str(why) or "it takes too much memory")
            return True
        digest, mark = hashlib.sha256(octets).hexdigest(), self.marked()
        before = mark.get("time") if (mark.get("name"),
                                      mark.get("sha256")) == (name, digest) else None
        answer = self.answer_to(line, {"name": name, "sha256": digest, "time": before or now()})
        if answer is None:
            return False
        words = in_words(answer)
        if answer == "refused 3" and before:
            words += (f". This file was sent at {before} too, and no answer was kept: the entry is "
                      "most likely scheduled. "
                      "Look at the worklist, then delete the file.")
        self.move(name, state, self.done if answer == "done" else self.refused, words)
        self.mark.unlink(missing_ok=True)
        return True

    def answer_to(self, line: str, mark: dict[str, str]) -> str | None:
        """The server's answer, before which the mark is kept; None if there is none, which is told
        once."""
        try:
            with Console(self.console) as console:
                self.put_mark(mark)
                answer = console.answer_to(line)
        except Unkept:
            raise
        except OSError as error:
            if not self.is_lost:
                told(f"no answer: {error}. It is tried again until there is one.")
            self.is_lost = True
            return None
        if self.is_lost:
            told(f"the server at {self.console} answers again")
        self.is_lost = False
        return answer

    def move(self, name: str, state: tuple[int, int, int] | None, place: pathlib.Path,
             words: str) -> None:
        """Moves a file to a place, with the reason beside it if it is refused, and says so."""
        if self.state_of(name) != state:
            print(f"{name}: {words} (and another file has this name now)", flush=True)
            return
        stem = name if len(os.fsencode(name)) < 240 else name[:50]
        target, number = place / stem, 0
        while target.exists() or reason_of(target).exists():
            number += 1
            target = place / f"{stem}.{number}"
        if place == self.refused:
            write_whole(reason_of(target), words + "\n")
        (self.folder / name).rename(target)
        print(f"{name}: {words}", flush=True)

    def marked(self) -> dict[str, str]:
        """The mark of the file that was sent last: its name, its digest and the time."""
        try:
            return json.loads(self.mark.read_text())
        except (FileNotFoundError, ValueError):
            return {}

    def put_mark(self, mark: dict[str, str]) -> None:
        try:
            write_whole(self.mark, json.dumps(mark))
        except OSError as error:
            raise Unkept(error.errno, f"{self.mark} cannot be written: {error.strerror}") from None


class Unkept(OSError):
    """The mark cannot be written, so that nothing may be sent."""


def now() -> str:
    return time.strftime("%Y-%m-%dT%H:%M:%SZ", time.gmtime())


def reason_of(path: pathlib.Path) -> pathlib.Path:
    return path.with_name(path.name + ".reason")


def write_whole(path: pathlib.Path, text: str) -> None:
    """Writes a file that is there whole or not at all, whenever the machine stops."""
    part = path.with_name(".part")
    with part.open("w", encoding="utf-8", errors="backslashreplace") as file:
        file.write(text)
        file.flush()
        os.fsync(file.fileno())
    part.replace(path)


# The command line.

def parser() -> argparse.ArgumentParser:
    words = argparse.ArgumentParser(description=__doc__,
                                    formatter_class=argparse.RawDescriptionHelpFormatter,
                                    usage="%(prog)s --console PATH INSTITUTION [FILE | --withdraw "
                                          "ID | --watch FOLDER]\n"
                                    "       %(prog)s --console PATH (--report | --backup FILE)")
    words.add_argument("institution", metavar="INSTITUTION", nargs="?",
                       help="the institution's name in the configuration")
    words.add_argument("file", metavar="FILE", nargs="?",
                       help="an entry: a DICOM file, or readable lines")
    words.add_argument("--console", metavar="PATH", required=True,
                       help="the socket that the server's --console names")
    other = words.add_mutually_exclusive_group()
    other.add_argument("--withdraw", metavar="ID",
                       help="the Scheduled Procedure Step ID of the entry to take away")
    other.add_argument("--watch", metavar="FOLDER", help="the folder whose files are scheduled")
    other.add_argument("--report", action="store_true",
                       help="print how many records of each kind every institution keeps")
    other.add_argument("--backup", metavar="FILE",
                       help="a path on the server's machine where nothing is yet")
    return words


def back_up(options: argparse.Namespace) -> int:
    """Has the store copied; the exit status."""
    # (the server may run in another folder)
    path = os.path.abspath(options.backup)
    if "\n" in path:
        raise NotTaken("a path with a line feed cannot be sent")
    with Console(options.console) as console:
        try:
            answer = console.answer_to(f"backup {path}")
        except OSError as error:
            raise NotTaken(f"no answer ({error}): look at the copy before you use it") from None
    print(in_words(answer))
    return status_of(answer)


def send(options: argparse.Namespace) -> int:
    """Sends one order; the exit status."""
    if options.withdraw is not None:
        line = f"withdraw {options.institution} {options.withdraw.encode().hex() or '-'}"
    else:
        octets = sys.stdin.buffer.read(LONGEST_FILE
                                       + 1) if options.file is None else pathlib.Path(
            options.file).read_bytes()
        line = schedule_line(options.institution, octets)
    with Console(options.console) as console:
        try:
            answer = console.answer_to(line)
        except OSError as error:
            raise NotTaken(f"no answer ({error}): the order may have been taken. Send it again: "
                           "`refused 3`, of a withdrawal "
                           "`refused 5`, then tells that it was.") from None
    print(in_words(answer))
    return status_of(answer)


def main() -> int:
    words = parser()
    options = words.parse_args()
    is_for_all = options.report or options.backup is not None
    if is_for_all and options.institution is not None:
        words.error("--report and --backup go with no INSTITUTION")
    if not is_for_all and options.institution is None:
        words.error("the following arguments are required: INSTITUTION")
    if options.file is not None and (options.watch is not None or options.withdraw is not None):
        words.error("a FILE goes with neither --withdraw nor --watch")
    sys.stdout.reconfigure(errors="backslashreplace")  # type: ignore[attr-defined]
    # (Ctrl-C ends it as SIGTERM does, at any place)
    signal.signal(signal.SIGINT, signal.SIG_DFL)
    try:
        if options.backup is not None:
            return back_up(options)
        if options.report:
            with Console(options.console) as console:
                print(console.report(), end="")
            return 0
        if not re.fullmatch("[A-Z0-9_]{1,16}", options.institution):
            raise NotTaken(f"'{options.institution}' is no institution's name: 1 to 16 of A to Z, "
                           "0 to 9 and _")
        if options.watch is None:
            return send(options)
        Watch(options.watch, options.console, options.institution).run()
    except (NotTaken, OSError) as why:
        told(why)
    return 2


if __name__ == "__main__":
    sys.exit(main())
