"""The declarations of `ltl2ba._abi` are those of the header."""

import ctypes
import re
import unittest

from tests.support import TOP, ltl2ba
from ltl2ba import _abi as abi

HEADER = re.sub(r"/\*.*?\*/", "", (TOP / "include/ltl2ba.h").read_text(encoding="utf-8"), flags=re.S)
PLAIN = {"uint8_t": ctypes.c_uint8, "uint32_t": ctypes.c_uint32, "uint64_t": ctypes.c_uint64, "size_t": ctypes.c_size_t, "bool": ctypes.c_bool}
STRUCTURES = {
    "ltl2ba_refusal": abi.Refusal,
    "ltl2ba_options": abi.Options,
    "ltl2ba_state": abi.State,
    "ltl2ba_edge": abi.Edge,
    "ltl2ba_name": abi.Name,
    "ltl2ba_counts": abi.Counts,
    "ltlcheck_found": abi.Found,
    "ltlcompare_found": abi.Compared,
    "ltlclaim_refusal": abi.ClaimRefusal,
}
TYPES = {**PLAIN, **{f"struct {name}": kind for name, kind in STRUCTURES.items()}}


def parameter(text):
    """The type of a parameter of the header, as ctypes is told it. Bytes are passed as a text of ctypes."""
    kind, star = re.fullmatch(r"(?:const )?((?:struct )?\w+) (\*?)\w+", " ".join(text.split())).groups()
    return ctypes.c_char_p if (kind, star) == ("uint8_t", "*") else ctypes.POINTER(TYPES[kind]) if star else TYPES[kind]


class TestHeader(unittest.TestCase):
    def test_calls(self):
        declared = {name: [parameter(it) for it in given.split(",")] for name, given in re.findall(r"^uint8_t (\w+)\(([^)]*)\);", HEADER, re.M)}
        for name, wanted in abi.CALLS.items():
            self.assertEqual(declared.get(name), wanted, name)

    def test_structures(self):
        for name, kind in STRUCTURES.items():
            body = re.search(rf"^struct {name} \{{\n(.*?)^\}};", HEADER, re.M | re.S)[1]
            fields = []
            for of, field, length in re.findall(r"((?:struct )?\w+) (\w+)(?:\[(\d+)\])?;", body):
                fields.append((field, TYPES[of] * int(length) if length else TYPES[of]))
            self.assertEqual([tuple(it) for it in kind._fields_], fields, name)

    def test_numbers(self):
        numbers = {name: int(value) for name, value in re.findall(r"^#define LTL2BA_(\w+) (\d+)\s*$", HEADER, re.M)}
        own = {name: value for name, value in vars(abi).items() if name.isupper() and isinstance(value, int) and name != "EDGE_SIZE"}
        for name, value in own.items():
            self.assertEqual(numbers.get(name), value, name)
        self.assertEqual(ltl2ba.__version__, re.search(r'LTL2BA_VERSION "(.*?)"', HEADER)[1])


if __name__ == "__main__":
    unittest.main()
