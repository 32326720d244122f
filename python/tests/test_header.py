"""The header, the exports and what Python declares say the same."""

import ctypes
import pathlib
import re
import unittest

from seedpaint import _library

CRATE = pathlib.Path(__file__).parents[2] / "crates/seedpaint_c"

EXPORT = re.compile(
    r'#\[unsafe\(no_mangle\)\]\npub extern "C" fn (\w+)\((.*?)\) -> u32', re.S
)

# A parameter of an export, as C declares it: one or two, of these types and names.
IN_C = {
    "Global": [],
    "&[u16]": ["const uint16_t *{}", "size_t {}_cells"],
    "&mut [u16]": ["uint16_t *{}", "size_t {}_cells"],
    "&[u8]": ["const uint8_t *{}", "size_t {}_bytes"],
    "&mut [u8]": ["uint8_t *{}", "size_t {}_bytes"],
    "u16": ["uint16_t {}"],
    "u32": ["uint32_t {}"],
    "&mut Lengths": ["struct seedpaint_lengths *{}"],
}
NAMED_IN_C = {"conn": "connectivity"}
IN_PYTHON = {
    "uint16_t": ctypes.c_uint16,
    "uint32_t": ctypes.c_uint32,
    "size_t": ctypes.c_size_t,
    "struct seedpaint_lengths *": ctypes.POINTER(_library.Lengths),
}


def split(words):
    """The parameters, each on one line."""
    return [" ".join(word.split()) for word in words.split(",") if word.strip()]


def in_c(parameter):
    """A parameter of an export as C has it: types with names."""
    name, kind = (word.strip() for word in parameter.split(":"))
    return [words.format(NAMED_IN_C.get(name, name)) for words in IN_C[kind]]


def exports():
    """Each export's parameters, as C has them."""
    found = {}
    for source in sorted((CRATE / "src").glob("*.rt")):
        text = source.read_text()
        for name, words in EXPORT.findall(text):
            found[name] = [one for word in split(words) for one in in_c(word)]
    return found


def declared():
    """Each prototype's parameters."""
    text = re.sub(r"/\*.*?\*/", "", (CRATE / "seedpaint.h").read_text(), flags=re.S)
    prototypes = re.findall(r"uint32_t (\w+)\((.*?)\);", text, re.S)
    return {name: split(words) for name, words in prototypes}


def kind_of(parameter):
    """The type of a parameter in C."""
    return re.sub(r"\w+$", "", parameter).strip()


class TheSame(unittest.TestCase):
    def test_header_and_exports(self):
        self.assertEqual(declared(), exports())
        self.assertEqual(len(exports()), 7)

    def test_python_and_exports(self):
        self.assertEqual(set(_library._ARGUMENTS), set(exports()))
        for name, parameters in exports().items():
            kinds = map(kind_of, parameters)
            expected = [IN_PYTHON.get(kind, ctypes.c_void_p) for kind in kinds]
            self.assertEqual(_library._ARGUMENTS[name], expected, name)

    def test_codes(self):
        codes = (CRATE / "src/codes.rt").read_text()
        header = (CRATE / "seedpaint.h").read_text()
        in_rattle = dict(re.findall(r"pub const (\w+): u32 = (\d+);", codes))
        in_c = dict(re.findall(r"^    SEEDPAINT_(\w+) = (\d)", header, re.M))
        self.assertEqual(in_rattle, in_c)
        for name, value in in_rattle.items():
            self.assertEqual(getattr(_library, name), int(value))
        (room,) = re.findall(r"SEEDPAINT_FAULT_BYTES = (\d+)", header)
        self.assertEqual(_library._FAULT_BYTES, int(room))

    def test_lengths(self):
        source = (CRATE / "src/buffers.rt").read_text()
        names = re.findall(r"pub (\w+): usize", source)
        header = (CRATE / "seedpaint.h").read_text()
        self.assertEqual(names, re.findall(r"^    size_t (\w+);", header, re.M))
        self.assertEqual(names, [name for name, _ in _library.Lengths._fields_])


if __name__ == "__main__":
    unittest.main()
