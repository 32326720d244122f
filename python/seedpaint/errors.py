"""What goes wrong, with its code and a sentence."""

from __future__ import annotations

__all__ = ["Fault"]

# The codes of the program, as docs/FORMATS.md has them.
_SENTENCES = {
    "V1": "the input has no line `image`",
    "E1": "a line is no place, disc or withdraw with numbers from 0 to 65535",
    "E2": "a tag is no UUID",
    "E3": "a stroke is refused",
    "P1": "the image does not begin with P2 or P5",
    "P2": "the header of the image is spelled otherwise",
    "P3": "a side of the image is 0",
    "P4": "a side of the image is above 16384, or it has more than 2**26 pixels",
    "P5": "the maxval of the image is 0 or above 65535",
    "P6": "the image ends too early",
    "P7": "a sample of the image is above its maxval",
    "P8": "a sample of the image is no number",
    "P9": "something stands behind the image",
    "C1": "a stroke does not lie in the mask",
    "C2": "another stroke has this tag already",
    "M1": "the state file does not begin as one",
    "M2": "the state file names a connectivity other than 4 and 8",
    "M3": "the state file is cut off",
    "M4": "the tags of the state file do not rise",
    "M5": "a stroke of the state file is refused",
    "M6": "a frame of the state file is too long",
    "M7": "something stands behind a frame of the state file",
    "D1": "the state file is for another mask or connectivity",
}

_STROKE_SENTENCES = {
    "S1": "its level is not from 1 to 65535",
    "S2": "it has no run",
    "S3": "it has more than 160 runs",
    "S4": "a run ends before it starts, or is not in order with the one before it",
    "S7": "its radius is above 255",
    "S8": "it is of no kind that is known",
}


class Fault(ValueError):
    """Strokes, a state file or an input that are refused.

    Parameters
    ----------
    line : str
        The line that the program writes for the fault, as
        ``seedpaint: E3 1 S1``.

    Attributes
    ----------
    code : str
        The code of the fault, as ``E3``.
    line : str
        The whole line.
    sentence : str
        What the code says, in words.

    Examples
    --------
    >>> raise Fault("seedpaint: E3 1 S1")
    Traceback (most recent call last):
    seedpaint.errors.Fault: E3 1 S1: a stroke is refused: its level is not from 1 to \
65535
    """

    def __init__(self, line: str) -> None:
        words = line.removeprefix("seedpaint: ").split()
        self.line = line
        self.code = words[0]
        self.sentence = ": ".join(_sentences(words))
        super().__init__(f"{' '.join(words)}: {self.sentence}")

    def __reduce__(self) -> tuple[type[Fault], tuple[str]]:
        return Fault, (self.line,)


def _sentences(words: list[str]) -> list[str]:
    """What the words of a fault say."""
    sentences = [_SENTENCES.get(words[0], "the input is refused")]
    sentences += [_STROKE_SENTENCES[w] for w in words[1:] if w in _STROKE_SENTENCES]
    return sentences
