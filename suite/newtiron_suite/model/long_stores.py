"""C-STOREs whose data sets are made as they are sent, so that they may have any length."""
from collections.abc import Iterator

from . import compose, data_sets
from .messages import C_STORE, DATA_SET, command_set, padded, two
from .upper_layer import LONGEST_PDU, P_DATA, fragments

CLASS, STUDY, SERIES = compose.CLASSES["CT"], b"1.2.1", b"1.2.1.1"


# (UN, as a length of four octets is needed)
PIXEL_DATA, STUDY_ID = ((0x7FE0, 0x0010), b"OW"), ((0x0020, 0x0010), b"UN")


def long_store(context: int, size: int, uid: bytes = b"1.2.1.1.1", longest: int = LONGEST_PDU,
               element: tuple[tuple[int, int], bytes] = PIXEL_DATA) -> Iterator[bytes]:
    """The PDUs of a C-STORE, one by one, whose data set has so many octets, all but the first ones
    zeros of one element."""
    values = {"SOPClassUID": CLASS, "SOPInstanceUID": uid, "StudyInstanceUID": STUDY,
              "SeriesInstanceUID": SERIES}
    elements = sorted((tag, vr, data_sets.padded(vr, value))
                      for (tag, vr), value in ((compose.tag_of(name), value) for name,
                                               value in values.items()))
    front = data_sets.canonical(elements,
                                data_sets.EXPLICIT) + data_sets.spelled_tag(
        element[0]) + element[1] + b"\0\0"
    left = size - len(front) - 4
    front += left.to_bytes(4, "little")

    def pdu(octets: bytes, last: bool) -> bytes:
        value = (len(octets) + 2).to_bytes(4, "big") + bytes([context, 2 * last]) + octets
        return bytes([P_DATA, 0]) + len(value).to_bytes(4, "big") + value

    yield fragments(context, True, command_set([
        (0x0002, padded(CLASS)), (0x0100, two(C_STORE)), (0x0110, two(1)), (0x0700, two(0)),
        (0x0800, two(DATA_SET)),
        (0x1000, padded(uid))]), longest)
    most = longest - 6
    yield pdu(front, False)
    zeros = pdu(bytes(most), False)
    while left > most:
        yield zeros
        left -= most
    yield pdu(bytes(left), True)
