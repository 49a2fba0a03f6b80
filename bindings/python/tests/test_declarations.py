"""The package's declarations, constants and words, held to the C header."""

import re
import unittest
from ctypes import POINTER, c_char_p, c_int64, c_size_t, c_uint8, c_uint16, c_uint32, c_uint64

from repository import HEADER, PACKAGE

import postman
from postman import Refusal, Standing, limits
from postman._library import DECLARATIONS, library

NUMBERS = {
    "uint8_t": c_uint8,
    "uint16_t": c_uint16,
    "uint32_t": c_uint32,
    "uint64_t": c_uint64,
    "int64_t": c_int64,
    "size_t": c_size_t,
}


def without_comments(text: str) -> str:
    return re.sub(r"/\*.*?\*/", " ", text, flags=re.DOTALL)


def type_of(declarator: str) -> type:
    """The ctypes type of `const uint8_t *plan`. Bytes and text that are only read go in and come out as bytes."""
    words = re.sub(r"\*", " * ", declarator).split()
    if words[:3] in (["const", "uint8_t", "*"], ["const", "char", "*"]):
        return c_char_p
    words = words[1:] if words[0] == "const" else words
    return POINTER(NUMBERS[words[0]]) if "*" in words else NUMBERS[words[0]]


def functions(header: str) -> dict[str, tuple[type, list[type]]]:
    """Every function that a header declares, in ctypes' words."""
    text = re.sub(r"^#.*$", "", without_comments(header), flags=re.MULTILINE)
    found = {}
    for result, name, parameters in re.findall(r"([\w *]+?)\b(\w+)\(([^)]*)\)\s*;", text):
        split = [] if parameters.strip() == "void" else parameters.split(",")
        found[name] = (type_of(result), [type_of(parameter) for parameter in split])
    return found


def constants(header: str) -> dict[str, int]:
    """The numbers of a header's macros and enumerators, without their prefix."""
    text = without_comments(header)
    macros = re.findall(r"^#define POSTMAN_(\w+) (\d+)u?\s*$", text, flags=re.MULTILINE)
    cases = re.findall(r"^ +POSTMAN_(\w+) = (\d+),?\s*$", text, flags=re.MULTILINE)
    return {name: int(value) for name, value in macros + cases}


def public(of: object) -> dict[str, int]:
    return {name: value for name, value in vars(of).items() if name.isupper() and not name.startswith("_")}


class Declarations(unittest.TestCase):
    def setUp(self) -> None:
        self.header = HEADER.read_text("utf-8")

    def expected(self, header: str) -> dict[str, tuple[type, list[type]]]:
        declared = functions(header)
        # The state that is asked is only read, and is no `bytes`: it lies in memory that other calls change.
        result, parameters = declared["postman_ask"]
        declared["postman_ask"] = (result, [POINTER(c_uint8), *parameters[1:]])
        return declared

    def test_functions_agree(self) -> None:
        self.assertEqual(self.expected(self.header), DECLARATIONS)
        self.assertEqual(len(DECLARATIONS), 20)

    def test_they_are_declared_to_ctypes(self) -> None:
        for name, (result, parameters) in DECLARATIONS.items():
            self.assertIs(getattr(library, name).restype, result)
            self.assertEqual(getattr(library, name).argtypes, parameters)

    def test_a_change_of_the_header_is_seen(self) -> None:
        for old, new in [
            ("int64_t postman_tree_count", "uint64_t postman_tree_count"),
            ("postman_mark(", "postman_marks("),
            ("uint32_t arc, uint16_t cost", "uint16_t cost, uint32_t arc"),
            ("const uint16_t *pairs", "const uint8_t *pairs"),
            ("uint16_t cost, uint16_t checking,", "uint16_t cost,"),
            ("const char *postman_version(void)", "const char *postman_version(uint8_t of)"),
            ("uint8_t *records, size_t records_len)", "const uint8_t *records, size_t records_len)"),
        ]:
            self.assertIn(old, self.header)
            changed = self.header.replace(old, new)
            self.assertNotEqual(self.expected(changed), DECLARATIONS, old)

    def test_constants_agree(self) -> None:
        ours = {
            **public(limits),
            **{f"REFUSED_{name}": number for name, number in public(Refusal).items()},
            "OPTIONAL": Standing.MAY,
            "REQUIRED": Standing.MUST,
            "CLOSED": Standing.CLOSED,
        }
        self.assertEqual(constants(self.header), ours)

    def test_one_version(self) -> None:
        (of_header,) = re.findall(r'^#define POSTMAN_VERSION "(.*)"$', self.header, flags=re.MULTILINE)
        (of_project,) = re.findall(r'^version = "(.*)"$', (PACKAGE / "pyproject.toml").read_text(), flags=re.MULTILINE)
        self.assertEqual({of_header, of_project, library.postman_version().decode()}, {postman.__version__})

    def test_trade_words_are_the_librarys(self) -> None:
        for number in range(1, 24):
            self.assertEqual(library.postman_refusal_word(number).decode(), Refusal(number).word)
        for number in (0, 24, 2**32 - 1):
            self.assertEqual(library.postman_refusal_word(number), b"")


if __name__ == "__main__":
    unittest.main()
