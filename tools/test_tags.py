#!/usr/bin/env python3
"""Tests of tags.py, outside the gate: which strokes are one object, and of which class they are.

    python3 tools/test_tags.py

The tags are spelled digit by digit, as docs/FORMATS.md says it. It takes some seconds, and needs Python alone.
"""

import random
import unittest
import uuid

from tags import class_of, is_painted, object_of, painted_label, painted_tag, picture_bits, told_class


def digits(chance, count):
    """So many random hexadecimal digits."""
    return "".join(chance.choice("0123456789abcdef") for _ in range(count))


def classed(author, gesture, in_class, count):
    """The tag of a stroke of the page that tells a class, from 16 digits of its author and 10 of its gesture."""
    number = f"{count:03x}"
    return uuid.UUID(f"{author}e{gesture}{number[0]}{in_class:02x}{number[1:]}")


class Objects(unittest.TestCase):
    """object_of."""

    def test_by_hand(self):
        gesture = "0011223344556677" + "8899aabbccdd"
        tags = [uuid.UUID(gesture + count) for count in ("0000", "0001", "ffff")]
        self.assertEqual({object_of(tag) for tag in tags}, {gesture})
        for other in ("0011223344556677" + "8899aabbccde" + "0000", "0011223344556670" + "8899aabbccdd" + "0000"):
            self.assertNotEqual(object_of(uuid.UUID(other)), gesture)

    def test_gestures(self):
        chance = random.Random(1)
        seen = set()
        for _ in range(300):
            author = digits(chance, 16)
            for _ in range(10):
                gesture = digits(chance, 12)
                found = {object_of(uuid.UUID(f"{author}{gesture}{count:04x}")) for count in range(chance.randint(1, 9))}
                self.assertEqual(len(found), 1)
                seen |= found
        self.assertEqual(len(seen), 3000)

    def test_random_tags(self):
        chance = random.Random(2)
        tags = [uuid.UUID(digits(chance, 32)) for _ in range(20_000)]
        self.assertEqual(len({object_of(tag) for tag in tags}), len(tags))
        painted = [tag for tag in tags if tag.hex[12] == "8" and tag.hex[16] == "8"]
        self.assertEqual([tag for tag in tags if is_painted(tag)], painted)
        self.assertTrue(40 < len(painted) < 130, len(painted))  # (one in 256)
        self.assertTrue(any(tag.version == 8 and not is_painted(tag) for tag in tags))
        drawn = [uuid.uuid4() for _ in range(2000)]
        self.assertEqual(len({object_of(tag) for tag in drawn}), 2000)
        self.assertFalse(any(map(is_painted, drawn)))

    def test_objects_stand_together(self):
        chance = random.Random(3)
        tags = [painted_tag("a.png", label, number) for label in range(30) for number in (0, 1, 70_000, 2**28 - 1)]
        tags += [uuid.UUID(f"{tags[0].hex[:12]}{digits(chance, 16)}{count:04x}") for count in range(100)]
        gestures = [digits(chance, 28) for _ in range(40)]
        tags += [uuid.UUID(f"{gesture}{count:04x}") for gesture in gestures for count in (0, 5)]
        tags.sort()
        changes = sum(object_of(one) != object_of(other) for one, other in zip(tags, tags[1:]))
        self.assertEqual(changes + 1, len({object_of(tag) for tag in tags}))


class Classes(unittest.TestCase):
    """class_of, and object_of where a tag tells a class."""

    def test_by_hand(self):
        for spelled, in_class in (("00112233-4455-6677-e899-aabbccdd0200", 2),
                                  ("00112233-4455-6677-e899-aabbccd00101", 1),
                                  ("00112233-4455-6677-E899-AABBCCDFFFF5", 255)):
            tag = uuid.UUID(spelled)
            self.assertEqual((class_of(tag), told_class(tag)), (in_class, in_class))
            self.assertEqual(object_of(tag), "0011223344556677" + "e899aabbccd")
        self.assertEqual(str(classed("0011223344556677", "899aabbccd", 2, 0xf07)),
                         "00112233-4455-6677-e899-aabbccdf0207")

    def test_all_classes_digit_by_digit(self):
        chance = random.Random(5)
        seen = set()
        for in_class in range(1, 256):
            author, gesture = digits(chance, 16), digits(chance, 10)
            for count in (0, 1, 15, 16, 255, 256, 4095):
                tag = classed(author, gesture, in_class, count)
                text = tag.hex
                self.assertEqual((text[:16], text[16], text[17:27]), (author, "e", gesture))
                self.assertEqual((int(text[28:30], 16), int(text[27] + text[30:], 16)), (in_class, count))
                self.assertEqual((class_of(tag), object_of(tag)), (in_class, text[:27]))
                self.assertEqual(class_of(uuid.UUID(str(tag).upper())), in_class)
                seen.add(tag)
        self.assertEqual(len(seen), 255 * 7)

    def test_other_tags_are_of_class_1(self):
        chance = random.Random(6)
        drawn = [uuid.uuid4() for _ in range(2000)]
        earlier = [uuid.UUID(f"{digits(chance, 16)}{digits(chance, 12)}{count:04x}")
                   for _ in range(2000) for count in (0, 255)]
        painted = [painted_tag("a.png", label, number) for label in (0, 7, 0xffffffff) for number in (0, 2**28 - 1)]
        self.assertEqual({class_of(tag) for tag in drawn + earlier + painted}, {1})
        self.assertEqual({told_class(tag) for tag in drawn + earlier + painted}, {0})
        self.assertTrue(any(tag.hex[16] == "e" for tag in earlier))

    def test_gestures_of_many_strokes(self):
        chance = random.Random(7)
        for in_class, strokes, objects in ((1, 300, 1), (200, 300, 1), (17, 4096, 1), (17, 5000, 2)):
            author, gestures = digits(chance, 16), [digits(chance, 10), digits(chance, 10)]
            tags = [classed(author, gestures[count // 4096], in_class, count % 4096) for count in range(strokes)]
            self.assertEqual(len(set(tags)), strokes)
            self.assertEqual(len({object_of(tag) for tag in tags}), objects)
            self.assertEqual({class_of(tag) for tag in tags}, {in_class})

    def test_a_painted_label_of_many_strokes(self):
        tags = [painted_tag("a.png", 9, number) for number in range(70_000)]
        self.assertEqual(len({object_of(tag) for tag in tags}), 1)
        self.assertEqual({class_of(tag) for tag in tags}, {1})

    def test_no_neighbour_is_of_the_object(self):
        chance = random.Random(8)
        for _ in range(300):
            author, gesture = digits(chance, 16), digits(chance, 10)
            tag = classed(author, gesture, 3, chance.randrange(4096))
            others = [uuid.UUID(f"{text[:place]}{int(text[place], 16) ^ 1:x}{text[place + 1:]}")
                      for text in (tag.hex,) for place in (*range(12), *range(13, 16), *range(17, 27))]
            self.assertNotIn(object_of(tag), {object_of(other) for other in others})

    def test_objects_with_classes_stand_together(self):
        chance = random.Random(9)
        tags = [classed(digits(chance, 16), digits(chance, 10), 1, 0) for _ in range(50)]
        author = digits(chance, 16)
        for in_class in (1, 2, 255):
            gesture = digits(chance, 10)
            tags += [classed(author, gesture, in_class, count) for count in (0, 1, 255, 256, 300, 4095)]
        tags.sort()
        changes = sum(object_of(one) != object_of(other) for one, other in zip(tags, tags[1:]))
        self.assertEqual(changes + 1, len({object_of(tag) for tag in tags}))


class Painted(unittest.TestCase):
    """Tags of painted strokes."""

    def test_by_hand(self):
        # `printf a.tif | sha256sum` begins with ed4cf50dec25e5e
        self.assertEqual(str(painted_tag("a.tif", 1, 0)), "ed4cf50d-ec25-8e5e-8000-000010000000")
        self.assertEqual(str(painted_tag("a.tif", 70_000, 2)), "ed4cf50d-ec25-8e5e-8000-111700000002")
        self.assertEqual(str(painted_tag("a.tif", 2**32 - 1, 2**28 - 1)), "ed4cf50d-ec25-8e5e-8fff-ffffffffffff")

    def test_labels(self):
        numbers = (0, 1, 2**16 - 1, 2**16, 2**28 - 1)
        for label in (0, 1, 255, 0xFF0010, 2**32 - 1):
            tags = [painted_tag("a.png", label, number) for number in numbers]
            self.assertTrue(all(map(is_painted, tags)))
            self.assertEqual({painted_label(tag) for tag in tags}, {label})
            self.assertEqual(len({object_of(tag) for tag in tags}), 1)
            self.assertEqual(len({picture_bits(tag) for tag in [*tags, painted_tag("a.png", 7, 3)]}), 1)
            self.assertNotEqual(object_of(tags[0]), object_of(painted_tag("a.png", label ^ 1, 0)))
            self.assertNotEqual(object_of(tags[0]), object_of(painted_tag("b.png", label, 0)))
            self.assertNotEqual(picture_bits(tags[0]), picture_bits(painted_tag("b.png", label, 0)))


if __name__ == "__main__":
    unittest.main()
