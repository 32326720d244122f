#!/usr/bin/env python3
"""Test that the page and the tools read the same from tags, outside the gate.

    python3 tools/test_tags_page.py

Node runs page/tags.js. It says of each tag its class and its object, and spells new tags; tools/tags.py says the same
of them all. It takes a few seconds, and needs Debian's package nodejs.
"""

import json
import pathlib
import random
import shutil
import subprocess
import unittest
import uuid

from tags import class_of, object_of, painted_tag

TOP = pathlib.Path(__file__).resolve().parent.parent
SAY = """
const { load } = require(process.argv[1]);
const { classOf, gestureOf, newTags } = load(["tags.js"], ["classOf", "gestureOf", "newTags"]);
const { tags, gestures } = JSON.parse(require("node:fs").readFileSync(0, "utf8"));
const spelled = gestures.map(({ count, author, inClass }) => newTags(Array(count).fill({ author, inClass })));
const told = [...tags, ...spelled.flat()].map(tag => [tag, classOf(tag), gestureOf(tag)]);
console.log(JSON.stringify({ told, spelled }));
"""


def digits(chance, count):
    """So many random hexadecimal digits."""
    return "".join(chance.choice("0123456789abcdef") for _ in range(count))


def odd_tags(chance):
    """Tags of all kinds: random digits, those of RFC 9562, of earlier pages, of painted labels, and near these."""
    tags = [uuid.UUID(digits(chance, 32)) for _ in range(4000)]
    tags += [uuid.uuid4() for _ in range(1000)]
    for _ in range(300):
        gesture = digits(chance, 28)
        tags += [uuid.UUID(f"{gesture}{count:04x}") for count in range(chance.randint(1, 9))]
    tags += [painted_tag("a.png", label, number) for label in (0, 1, 70_000) for number in (0, 1, 2**28 - 1)]
    for mark in "0689abef":
        for version in "48e":
            for told in ("00", "01", "ff"):
                start, middle, end = digits(chance, 12), digits(chance, 3), digits(chance, 11)
                tags.append(uuid.UUID(f"{start}{version}{middle}{mark}{end}{told}{digits(chance, 2)}"))
    return tags


@unittest.skipUnless(shutil.which("node"), "node is missing")
class Agreement(unittest.TestCase):
    """The page and the tools."""

    def test_tags(self):
        chance = random.Random(4)
        gestures = [{"count": chance.choice((1, 2, 30, 300)), "author": digits(chance, 16), "inClass": inClass}
                    for inClass in range(1, 256)] + [{"count": 5000, "author": digits(chance, 16), "inClass": 9}]
        sent = json.dumps({"tags": list(map(str, odd_tags(chance))), "gestures": gestures})
        loader = str(TOP / "page" / "tests" / "load.js")
        ran = subprocess.run(["node", "-e", SAY, loader], input=sent, stdout=subprocess.PIPE, text=True, check=True)
        answer = json.loads(ran.stdout)
        for tag, told, gesture in answer["told"]:
            self.assertEqual((told, gesture), (class_of(uuid.UUID(tag)), object_of(uuid.UUID(tag))), tag)
        for gesture, tags in zip(gestures, answer["spelled"]):
            objects = {object_of(uuid.UUID(tag)) for tag in tags}
            self.assertEqual(len(objects), 1 if gesture["count"] <= 4096 else 2)
            self.assertEqual({class_of(uuid.UUID(tag)) for tag in tags}, {gesture["inClass"]})
            self.assertEqual(len(set(tags)), gesture["count"])


if __name__ == "__main__":
    unittest.main()
