"""The calls `hemvuda_normal_text` and `hemvuda_measure`, by ctypes over a shared library that examples/build makes of the static one."""

import ctypes
from pathlib import Path

# The most bytes that a text or a normal text may have.
LONGEST = 65_535


class Answer(ctypes.Structure):
    _fields_ = [(name, ctypes.c_uint64) for name in ("cause", "place", "line", "column", "first", "second", "third")]


class Refusal(Exception):
    """Why a text has no normal text: the cause by its number, and where."""

    def __init__(self, answer):
        self.cause, self.place, self.line, self.column = answer.cause, answer.place, answer.line, answer.column
        super().__init__(f"refused {self.cause} at {self.place} line {self.line} column {self.column}")


class Hemvuda:
    def __init__(self, path):
        library = ctypes.CDLL(str(Path(path).resolve()))
        # A pointer and its length stand for each buffer.
        lent = [ctypes.c_void_p, ctypes.c_size_t]
        library.hemvuda_version.restype = ctypes.c_uint32
        library.hemvuda_measure.argtypes = lent
        library.hemvuda_normal_text.argtypes = 4 * lent
        library.hemvuda_measure.restype = library.hemvuda_normal_text.restype = Answer
        self.library = library
        self.version = library.hemvuda_version()

    def measure(self, text):
        """How many words of records, and how many bytes of texts, the tree of a text takes."""
        text = bytes(text)
        answer = self.library.hemvuda_measure(text, len(text))
        if answer.cause != 0:
            raise Refusal(answer)
        return answer.first, answer.second

    def normal_text(self, text):
        """The normal text of a text."""
        text = bytes(text)
        words, size = self.measure(text)
        # No buffer is empty, so that none has a null pointer.
        records, texts = (ctypes.c_uint32 * words)(), (ctypes.c_uint8 * max(size, 1))()
        output = (ctypes.c_uint8 * LONGEST)()
        answer = self.library.hemvuda_normal_text(text, len(text), records, words, texts, size, output, LONGEST)
        if answer.cause != 0:
            raise Refusal(answer)
        return bytes(output[: answer.first])
