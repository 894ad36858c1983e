"""Rows of almost 1 MiB, of which few fill a page: worklist items, procedure steps and studies."""
from . import compose, costly, data_sets, services
from .data_sets import Element
from .messages import C_STORE, N_CREATE

# How many octets the text of such a row has. JSON leaves out spaces at the end of a text.
LARGE = 975000
SPACES, LETTERS = b" " * LARGE, b"x" * LARGE


def item_with(words: str, element: Element) -> bytes:
    """The data set of an item of these words, with one element more. (Words would take long to read
    with one so large.)"""
    found = compose.data_set(compose.words_of(words, 1))
    return data_sets.canonical(services.with_element(found, element), data_sets.EXPLICIT)


def item(words: str, comments: bytes) -> bytes:
    """The data set of an item of these words, with comments on the patient."""
    return item_with(words, ((0x0010, 0x4000), "LT", comments))


def step(at: int, comments: bytes) -> bytes:
    """An N-CREATE of a step in Explicit, with comments on a patient whose ID tells its number."""
    patient = costly.keyed(PatientID=b"L%02d" % at, PatientComments=comments)
    octets = costly.step_of(data_sets.EXPLICIT,
                            costly.elements(*patient, syntax=data_sets.EXPLICIT))
    return costly.message(9, N_CREATE, "mpps", octets, b"1.2.9.%d" % (100 + at))


def study(uid: bytes, description: bytes) -> bytes:
    """A C-STORE of an image of a study in Explicit, with a description."""
    described = costly.keyed(StudyDescription=description)
    octets = costly.elements(*costly.image_of(uid), *described, syntax=data_sets.EXPLICIT)
    return costly.message(3, C_STORE, "CT", octets, uid + b".1.1")
