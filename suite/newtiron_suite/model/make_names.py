"""Names of attributes, for the suite of data sets: suite/models make_names > LINES

Each keyword of the dictionary, and the eight digits of its tag; and of each what is neither.
"""
from . import dictionary


def main(_words: list[str]) -> None:
    for (group, element), _, keyword in dictionary.entries():
        for name in (keyword, f"{group:04X}{element:04x}", keyword[1:], keyword + "s",
                     keyword.lower()):
            print("tag", name.encode().hex())
    for name in ("7FE0001", "7FE000100", "7FE0 0010", "+7FE0010", "0010,0010"):
        print("tag", name.encode().hex())
