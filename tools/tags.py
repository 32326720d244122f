"""The tags of strokes: which strokes are one object, and what the tag of a painted stroke says.

docs/FORMATS.md has the rule, under "Tags". The program compares tags and reads nothing in them; the page and the tools
in this folder read what stands there.
"""

import hashlib
import os
import uuid

NUMBER_BITS, LABEL_BITS = 28, 32  # of a painted tag; two zero bits stand before the label
DIGITS_OF_GESTURE = 28  # with which the tags of one gesture on the page begin, where they tell no class
DIGITS_OF_CLASSED = 27  # and where they do
CLASS_MARK = "e"  # digit 17 of tags that tell a class
DIGITS_OF_LABEL = 25  # with which the painted tags of one label begin


def object_of(tag):
    """The digits, in lower case, that the tags of all strokes of one object begin with, and no others."""
    if is_painted(tag):
        return tag.hex[:DIGITS_OF_LABEL]
    return tag.hex[:DIGITS_OF_CLASSED if told_class(tag) else DIGITS_OF_GESTURE]


def told_class(tag):
    """The class, 1 to 255, that a tag of the page tells, or 0 where it tells none."""
    return int(tag.hex[28:30], 16) if tag.hex[16] == CLASS_MARK else 0


def class_of(tag):
    """The class of a stroke, 1 to 255: 1 where its tag tells none."""
    return told_class(tag) or 1


def is_painted(tag):
    """Whether a tag is spelled as that of a painted stroke: version 8, and two zero bits behind the variant."""
    return tag.hex[12] == tag.hex[16] == "8"


def painted_tag(name, label, number):
    """The tag of the stroke of this number, from 0, of a label that was painted in the file of this name."""
    digest = int.from_bytes(hashlib.sha256(os.fsencode(name)).digest(), "big")
    front, middle = digest >> 208, digest >> 196 & 0xFFF  # (the first 48 bits, and the next 12)
    low = 0b10 << 62 | label << NUMBER_BITS | number
    return uuid.UUID(int=front << 80 | 8 << 76 | middle << 64 | low)


def painted_label(tag):
    """The label in the tag of a painted stroke."""
    return tag.int >> NUMBER_BITS & (1 << LABEL_BITS) - 1


def picture_bits(tag):
    """What the tags of all strokes of one painted picture have in common."""
    return tag.int >> NUMBER_BITS + LABEL_BITS
