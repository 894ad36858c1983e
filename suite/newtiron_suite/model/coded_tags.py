"""The tags of the code, as dictionary.py prints those of the models: keyword, tag and value
representation of each, in their order. What does not go together is printed besides, as a constant
that has no value representation or another name than its keyword.

Use: suite/models coded_tags FOLDER     of the crate dq_vr
"""
import pathlib
import re

CONSTANT = re.compile(r"/// `(\w+)`\.\npub const (\w+): Tag = tag!\(0x([0-9a-f]{4}), "
                      r"0x([0-9a-f]{4})\);")
ENTRY = re.compile(r"\(\s*(\w+),\s*Vr::(\w\w),?\s*\)")
DEFINED = re.compile(r"^abbrev pub (\w+) : Tag\n(\w+) = code\.(\w+)$", re.M)


def is_named(constant: str, keyword: str) -> bool:
    return constant.replace("_", "").lower() == keyword.lower()


def main(words: list[str]) -> None:
    folder = pathlib.Path(words[0])
    code, definitions = (folder / "src/tags.rt").read_text(), (
        folder / "specs/Tags.antt").read_text()
    constants = {name: (keyword, group + element) for keyword, name, group,
                 element in CONSTANT.findall(code)}
    entries = ENTRY.findall(code)
    for name, vr in entries:
        keyword, tag = constants.get(name, (name, "no tag"))
        print(keyword, tag.upper(), vr)
    listed = {name for name, _ in entries}
    for name in dict.fromkeys([*constants, *re.findall(r"^pub const (\w+)", code, re.M)]):
        if name not in listed or name not in constants or not is_named(name, constants[name][0]):
            print(f"the constant {name}")
    for name, again, constant in DEFINED.findall(definitions):
        if not name == again == constant.lower():
            print(f"the definition {name}")
