"""Names of the standard for the numbers of PDUs, commands and UIDs, for what is shown to people.
Each table says its section.

A number that a table does not have is shown as itself: `named` says so, and nothing is guessed.
"""
from . import sop_classes
from .dictionary import KEYWORDS

# PS3.8 section 9.3.1, table 9-10 and those after it: the types of PDUs
PDUS = {0x01: "A-ASSOCIATE-RQ", 0x02: "A-ASSOCIATE-AC", 0x03: "A-ASSOCIATE-RJ", 0x04: "P-DATA-TF",
        0x05: "A-RELEASE-RQ",
        0x06: "A-RELEASE-RP", 0x07: "A-ABORT"}
PDU_SECTIONS = {kind: f"9.3.{kind + 1}" for kind in PDUS}

# PS3.8 section 9.3.3.2, table 9-18: results of presentation contexts
CONTEXT_RESULTS = {0: "acceptance", 1: "user-rejection", 2: "no-reason",
                   3: "abstract-syntax-not-supported",
                   4: "transfer-syntaxes-not-supported"}

# PS3.8 section 9.3.4, table 9-21: A-ASSOCIATE-RJ; reasons by their source
REJECT_RESULTS = {1: "rejected-permanent", 2: "rejected-transient"}
REJECT_SOURCES = {1: "service-user", 2: "service-provider (ACSE related function)",
                  3: "service-provider (Presentation related function)"}
REJECT_REASONS = {1: {1: "no-reason-given", 2: "application-context-name-not-supported",
                      3: "calling-AE-title-not-recognized", 7: "called-AE-title-not-recognized"},
                  2: {1: "no-reason-given", 2: "protocol-version-not-supported"},
                  3: {1: "temporary-congestion", 2: "local-limit-exceeded"}}

# PS3.8 section 9.3.8, table 9-26: A-ABORT; a reason counts where the provider aborts
ABORT_SOURCES = {0: "service-user", 2: "service-provider"}
ABORT_REASONS = {0: "reason-not-specified", 1: "unrecognized-PDU", 2: "unexpected-PDU",
                 4: "unrecognized-PDU-parameter",
                 5: "unexpected-PDU-parameter", 6: "invalid-PDU-parameter-value"}

# PS3.7 annex D.3.3 and PS3.8 annex D.1: sub-items of the user information
USER_ITEMS = {0x51: "longest PDU", 0x52: "implementation class",
              0x53: "asynchronous operations window",
              0x54: "role selection", 0x55: "implementation version",
              0x56: "SOP class extended negotiation",
              0x57: "SOP class common extended negotiation", 0x58: "user identity",
              0x59: "user identity answer"}

# PS3.7 annex E.1, table E.1-1: command fields; a response has the bit 8000
COMMANDS = {0x0001: "C-STORE", 0x0010: "C-GET", 0x0020: "C-FIND", 0x0021: "C-MOVE",
            0x0030: "C-ECHO",
            0x0100: "N-EVENT-REPORT", 0x0110: "N-GET", 0x0120: "N-SET", 0x0130: "N-ACTION",
            0x0140: "N-CREATE",
            0x0150: "N-DELETE", 0x0FFF: "C-CANCEL"}

# PS3.7 annex E.1, table E.1-1: the elements of command sets, of group 0000
COMMAND_ELEMENTS = {
    0x0000: "CommandGroupLength", 0x0002: "AffectedSOPClassUID", 0x0003: "RequestedSOPClassUID",
    0x0100: "CommandField",
    0x0110: "MessageID", 0x0120: "MessageIDBeingRespondedTo", 0x0600: "MoveDestination",
    0x0700: "Priority",
    0x0800: "CommandDataSetType", 0x0900: "Status", 0x0901: "OffendingElement",
    0x0902: "ErrorComment", 0x0903: "ErrorID",
    0x1000: "AffectedSOPInstanceUID", 0x1001: "RequestedSOPInstanceUID", 0x1002: "EventTypeID",
    0x1005: "AttributeIdentifierList", 0x1008: "ActionTypeID",
    0x1020: "NumberOfRemainingSuboperations",
    0x1021: "NumberOfCompletedSuboperations", 0x1022: "NumberOfFailedSuboperations",
    0x1023: "NumberOfWarningSuboperations", 0x1030: "MoveOriginatorApplicationEntityTitle",
    0x1031: "MoveOriginatorMessageID"}

# PS3.7 annex E.1, table E.1-1: priorities
PRIORITIES = {0: "medium", 1: "high", 2: "low"}

# PS3.7 annex C: statuses of all services
STATUSES = {
    0x0000: "success", 0x0105: "no such attribute", 0x0106: "invalid attribute value",
    0x0107: "attribute list error",
    0x0110: "processing failure", 0x0111: "duplicate SOP instance", 0x0112: "no such SOP instance",
    0x0113: "no such event type", 0x0114: "no such argument", 0x0115: "invalid argument value",
    0x0116: "attribute value out of range", 0x0117: "invalid object instance",
    0x0118: "no such SOP class",
    0x0119: "class-instance conflict", 0x0120: "missing attribute",
    0x0121: "missing attribute value",
    0x0122: "refused: SOP class not supported", 0x0123: "no such action",
    0x0124: "refused: not authorized",
    0x0210: "duplicate invocation", 0x0211: "unrecognized operation", 0x0212: "mistyped argument",
    0x0213: "resource limitation", 0xFE00: "cancel", 0xFF00: "pending"}

# PS3.4 annex B.2.3, table B.2-1 (C-STORE), and annexes C.4.1.1.4 and K.4.1.1.4, tables C.4-1 and
# K.4-1 (C-FIND): statuses by command, as they begin
SERVICE_STATUSES = {
    0x0001: {"A7": "refused: out of resources", "A9": "error: data set does not match SOP class",
             "C": "error: cannot understand", "B000": "warning: coercion of data elements",
             "B006": "warning: elements discarded",
             "B007": "warning: data set does not match SOP class"},
    0x0020: {"A700": "refused: out of resources",
             "A900": "error: identifier does not match SOP class",
             "C": "failed: unable to process", "FE00": "cancel: matching terminated",
             "FF00": "pending", "FF01": "pending: optional keys are not supported"}}

# PS3.6 annex A, table A-1: transfer syntaxes
TRANSFER_SYNTAXES = {
    "1.2.840.10008.1.2": "Implicit VR Little Endian",
    "1.2.840.10008.1.2.1": "Explicit VR Little Endian",
    "1.2.840.10008.1.2.1.99": "Deflated Explicit VR Little Endian",
    "1.2.840.10008.1.2.2": "Explicit VR Big Endian",
    "1.2.840.10008.1.2.4.50": "JPEG Baseline (Process 1)",
    "1.2.840.10008.1.2.4.51": "JPEG Extended (Process 2 & 4)",
    "1.2.840.10008.1.2.4.57": "JPEG Lossless, Non-Hierarchical (Process 14)",
    "1.2.840.10008.1.2.4.70": "JPEG Lossless, Non-Hierarchical, First-Order Prediction",
    "1.2.840.10008.1.2.4.80": "JPEG-LS Lossless",
    "1.2.840.10008.1.2.4.81": "JPEG-LS Lossy (Near-Lossless)",
    "1.2.840.10008.1.2.4.90": "JPEG 2000 Lossless Only", "1.2.840.10008.1.2.4.91": "JPEG 2000",
    "1.2.840.10008.1.2.5": "RLE Lossless"}

# PS3.6 annex A, table A-1: the application context, and SOP classes that are not served
APPLICATION_CONTEXTS = {"1.2.840.10008.3.1.1.1": "DICOM Application Context Name"}
SOP_CLASSES = {
    "1.2.840.10008.5.1.4.1.2.1.1": "Patient Root Query/Retrieve Information Model - FIND",
    "1.2.840.10008.5.1.4.1.2.2.2": "Study Root Query/Retrieve Information Model - MOVE"}

# PS3.6 annex A, table A-1: storage SOP classes that are not served, by what follows
# 1.2.840.10008.5.1.4.1.1.; each name ends in " Storage"
STORAGE_TEXT = """
1.1     Digital X-Ray Image - For Presentation
1.1.1   Digital X-Ray Image - For Processing
1.2     Digital Mammography X-Ray Image - For Presentation
1.2.1   Digital Mammography X-Ray Image - For Processing
1.3     Digital Intra-Oral X-Ray Image - For Presentation
1.3.1   Digital Intra-Oral X-Ray Image - For Processing
2.1     Enhanced CT Image
3.1     Ultrasound Multi-frame Image
4.1     Enhanced MR Image                               4.2     MR Spectroscopy
7.1     Multi-frame Single Bit Secondary Capture Image
7.2     Multi-frame Grayscale Byte Secondary Capture Image
7.3     Multi-frame Grayscale Word Secondary Capture Image
7.4     Multi-frame True Color Secondary Capture Image
9.1.1   12-lead ECG Waveform                            9.1.2   General ECG Waveform
9.1.3   Ambulatory ECG Waveform                         9.2.1   Hemodynamic Waveform
9.3.1   Cardiac Electrophysiology Waveform              9.4.1   Basic Voice Audio Waveform
11.1    Grayscale Softcopy Presentation State           11.2    Color Softcopy Presentation State
11.3    Pseudo-Color Softcopy Presentation State        11.4    Blending Softcopy Presentation State
12.1    X-Ray Angiographic Image                        12.1.1  Enhanced XA Image
12.2    X-Ray Radiofluoroscopic Image                   12.2.1  Enhanced XRF Image
20      Nuclear Medicine Image                          66      Raw Data
66.1    Spatial Registration                            66.2    Spatial Fiducials
67      Real World Value Mapping                        77.1.1  VL Endoscopic Image
77.1.2  VL Microscopic Image
77.1.3  VL Slide-Coordinates Microscopic Image
77.1.4  VL Photographic Image                           77.1.5.1  Ophthalmic Photography 8 Bit Image
77.1.5.2  Ophthalmic Photography 16 Bit Image           77.1.5.3  Stereometric Relationship
77.1.5.4  Ophthalmic Tomography Image                   88.11   Basic Text SR
88.22   Enhanced SR                                     88.33   Comprehensive SR
88.40   Procedure Log                                   88.50   Mammography CAD SR
88.59   Key Object Selection Document                   88.65   Chest CAD SR
88.67   X-Ray Radiation Dose SR                         88.69   Colon CAD SR
104.1   Encapsulated PDF                                128     Positron Emission Tomography Image
481.1   RT Image                                        481.2   RT Dose
481.3   RT Structure Set                                481.4   RT Beams Treatment Record
481.5   RT Plan                                         481.6   RT Brachy Treatment Record
481.7   RT Treatment Summary Record
"""


def storage_classes() -> dict[str, str]:
    entries = [entry for line in STORAGE_TEXT.strip().split("\n") for entry in line.split("   ")
               if entry.strip()]
    parts, found = [part for entry in entries for part in entry.strip().split("  ")], {}
    for number, name in zip(parts[::2], parts[1::2]):
        kind, dash, purpose = name.strip().partition(" - ")
        found[f"1.2.840.10008.5.1.4.1.1.{number}"] = f"{kind} Storage{dash}{purpose}"
    return found


SOP_CLASSES |= storage_classes() | sop_classes.NAMES

# the tags of PS3.6, by which data sets are shown
KEYWORDS_BY_TAG = {tag: name for name, tag in KEYWORDS.items()}


def named(table: dict[int, str], number: int) -> str:
    """The number with its name in the table, or alone."""
    return f"{number} {table[number]}" if number in table else str(number)


def uid_named(table: dict[str, str], uid: bytes) -> str:
    """The name of a UID, or the UID."""
    text = printable(uid)
    return table.get(text, text or "-")


def printable(octets: bytes) -> str:
    """Octets as text in which those that are not printable ASCII stand as \\xHH."""
    return "".join(chr(octet) if 0x20 <= octet <= 0x7E else f"\\x{octet:02X}" for octet in octets)


def command_name(field: int) -> str:
    """The command of a field, as C-ECHO-RQ or C-ECHO-RSP."""
    name = COMMANDS.get(field & 0x7FFF)
    return f"command {field:04X}" if name is None else name + ("-RSP" if field & 0x8000 else "-RQ")


def status_name(status: int, field: int) -> str:
    """A status with its name, which its service may give, or PS3.7."""
    text = f"{status:04X}"
    for start, name in SERVICE_STATUSES.get(field & 0x7FFF, {}).items():
        if text.startswith(start):
            return f"{text} {name}"
    return f"{text} {STATUSES[status]}" if status in STATUSES else text
