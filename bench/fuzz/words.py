"""A plain reader of the words of the command line, from docs/FORMATS.md, and words to try it with."""

from typing import NamedTuple

from readers import Refused

OPTIONS = {"view": ["conn", "tile", "state"], "derive": ["h", "conn"],
           "node": ["port", "ticks", "hands", "conn", "tile", "state"]}
KINDS = ["fill", "hmax", "regmax"]


class Said(NamedTuple):
    """What words say: a subcommand, the texts of its options by name, and its other words."""
    name: str
    options: dict
    others: list


def read_words(words):
    """What the words behind the program's name say. `usage` where they say no call. Each word is bytes."""
    try:
        words = [word.decode() for word in words]
    except UnicodeDecodeError:
        raise Refused("usage") from None
    if not words:
        return Said("view", {}, [])
    if words[0] not in OPTIONS:
        raise Refused("usage")
    said = Said(words[0], *taken_apart(words[1:], OPTIONS[words[0]]))
    judge_values(said)
    return said


def taken_apart(words, names):
    """The options and the other words behind a subcommand."""
    options, others, place = {}, [], 0
    while place < len(words):
        word = words[place]
        place += 1
        if word == "--":
            return options, others + words[place:]
        if not word.startswith("-") or word == "-":
            others.append(word)
            continue
        name, sign, value = word[2:].partition("=")
        if not sign:
            value = next_value(words, place)
            place += 1
        if not word.startswith("--") or name not in names or name in options:
            raise Refused("usage")
        options[name] = value
    return options, others


def next_value(words, place):
    """The value of an option in the word behind it, which begins with no `-`, but may be that."""
    if place == len(words) or (words[place].startswith("-") and words[place] != "-"):
        raise Refused("usage")
    return words[place]


def judge_values(said):
    """Whether each value is one of those that its option takes, and whether the other words are right."""
    for name, low, high in [("tile", 8, 256), ("h", 0, 65_535), ("port", 1, 65_535), ("ticks", 1, 100_000),
                            ("hands", 1, 16)]:
        if name in said.options and not is_number(said.options[name], low, high):
            raise Refused("usage")
    if said.options.get("conn", "4") not in ("4", "8"):
        raise Refused("usage")
    if said.name == "view" and said.others:
        raise Refused("usage")
    if said.name == "derive" and (len(said.others) != 1 or said.others[0] not in KINDS):
        raise Refused("usage")
    if said.name == "node" and not is_node(said):
        raise Refused("usage")


def is_node(said):
    """Whether a node has its port, its ticks, and 1 to 8 ports of others."""
    return ("port" in said.options and "ticks" in said.options and 1 <= len(said.others) <= 8
            and all(is_number(port, 1, 65_535) for port in said.others))


def is_number(text, low, high):
    """Whether a text is a number in decimal without leading zeros, in this range."""
    return text.isascii() and text.isdigit() and str(int(text[:20])) == text and low <= int(text) <= high


# ---- Words to try ----

VALUES = {"conn": ["4", "8", "4", "8", "08", "5", "48", "", "-4", "４"],
          "tile": ["8", "64", "256", "7", "257", "08", "+8", "8 ", ""],
          "state": ["kept.spd", "kept.spd", "kept.spd", "", "-x", "--", "\udcff"],
          "h": ["0", "1", "65535", "65536", "00", "-1", "99999999999999999999999"],
          "port": ["1", "7", "65535", "65536", "0", "01"], "ticks": ["1", "2", "5", "0", "100001", "1.0"],
          "hands": ["1", "2", "16", "17", "0"], "x": ["1"], "help": ["1"], "CONN": ["4"]}
STRAYS = ["--", "--", "-", "", "-h", "-x", "--help", "--version", "help", "view", "fill", "hmax", "9", "0", "\udcff",
          "conn"]
NEEDED = ["port", "ticks"]  # of a node


def random_words(chance):
    """Words of a call, most of them good or with one slip, as text in which a byte that is no UTF-8 is a surrogate."""
    name = chance.choice(["view", "view", "derive", "node", "node"])
    parts = [spelled(chance, each, True) for each in OPTIONS[name] if each in NEEDED or chance.random() < 0.5]
    if name == "derive":
        parts.append([chance.choice(KINDS)])
    if name == "node":
        parts += [[chance.choice(["9", "65535", "11", "13"])] for _ in range(chance.choice([1, 1, 2, 8]))]
    for _ in range(chance.choice([0, 1, 1, 2])):
        parts = slipped(chance, parts)
    chance.shuffle(parts)
    first = [name] if chance.random() < 0.95 else chance.choice([[], ["VIEW"], ["views"], ["--"], ["--", name]])
    return first + [word for part in parts for word in part]


def spelled(chance, name, is_good):
    """An option with a value in one of its two spellings."""
    values = VALUES[name]
    value = chance.choice(values[:2] if is_good else values)
    return [f"--{name}={value}"] if chance.random() < 0.4 else [f"--{name}", value]


def slipped(chance, parts):
    """The parts with a slip: one more, one less, another value, or a word somewhere."""
    kind = chance.randrange(4)
    if kind == 0:
        return [*parts, spelled(chance, chance.choice(list(VALUES)), False)]
    if kind == 1 and parts:
        return parts[1:]
    if kind == 2 and parts:
        return [*parts[:-1], parts[-1][:1]]
    return [*parts, [chance.choice(STRAYS)]]
