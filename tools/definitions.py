#!/usr/bin/env python3
"""Write docs/DEFINITIONS.md from the comments in crates/*/specs/*.antt.

    python3 tools/definitions.py            writes it
    python3 tools/definitions.py --check    ends with status 1 where it is not up to date

The crates come in the order of crates.txt, and the files of a crate in that of its `specs/Lib.antt`. Of a file the page
has its first comment, and of a definition its name, the names of its places and the comment above it. Files whose words
no public clause cites are listed below: of these it has the names of the definitions alone.
"""

import argparse
import collections
import pathlib
import re
import sys

TOP = pathlib.Path(__file__).resolve().parent.parent
TARGET = TOP / "docs" / "DEFINITIONS.md"

HEAD = """# Definitions

The words that public contracts use, in English beside their formal names. Read these first: a proof is worth what its
definitions say. `tools/definitions.py` makes this page from the comments in `crates/*/specs/*.antt`. To change it,
change a comment there, and run the script again.

Each crate that has definitions has a table. A row in bold is a file of its `specs/` with what it is about, and the rows
below it are its definitions. A crate cites those of the crates below it, too: "Where definitions live" in
`docs/ARCHITECTURE.md` tells which topic stands where. `docs/PROMISES.md` has the promises that use these words.

- Numbers are whole and not negative.
- Behind a name stand its places, by the names that its definition gives them. A place without a name has its type.
- A name with a capital is a statement, which holds or does not, or a kind of values. Every other name is a value.
- A comment speaks of the definition beside it; "the same" and "that" mean the one above. Where there is no comment the
  cell is empty, and the formula is all.
- A mask, a marker and an image are functions from pixels where paths and reconstructions are defined; `value_at` makes
  one of a raster.
- A delta is a state. One that comes from a line of the edit text has one stroke or one tombstone.
- Of a run, `early` are the errors that may come whatever the input is, want of memory among them, and `failed` those
  that say that a device failed.
- `StartsX text .. rest` says that the text begins with an X, and that `rest` is what follows it.
- Of a file that is marked as private only private contracts cite the words; as core, only those of the crates of the
  core; as tests, only tests and programs that measure or stress. Their words are listed by their names.

## How a clause reads

| Written | Read |
|---|---|
| `x.now`, `x.old`, `x.new`, `result` | the value at the call, before it and after it; the answer |
| `IfOk result P`, `IfErr result P` | where the answer is Ok (Err), P holds of what it carries; else nothing is said |
| `OnOk result P`, `OnErr result P` | where the answer is Ok (Err), P holds |
| `IsOk result`, `IsErrOf result e` | the answer is Ok; it is Err with e |
| `IsOkUnless result e`, `IsOkAnd result P` | it is Ok, or Err with e; it is Ok, and P holds of the value |
| `MatchResult result P Q` | P holds of the value, or Q of the error |
| `IfSome known P`, `IfNone known P` | where there is a value, P holds of it; where there is none, P holds |
| `MatchOption known P Q` | P holds where there is no value, and Q of the value where there is one |
| `×`, `⊎`, `↔`, `P → ⊥` | and; or; exactly where; P does not hold |
| `ShowsInOrder` | an iterator gives one by one, from the front, the list that it is seen as |

## Words that stand elsewhere

Some words of clauses are defined by the kit, and some stand beside the type or the trait in `src/` that has them.

| Name | In words |
|---|---|
| `Appends old new text` (the kit) | known bytes grew by exactly the text; of bytes that are not known it says nothing |
| `IsAtEnd` (the kit) | no known byte is left |
| `ReadConsumes`, `WriteAppends` (the kit) | what one read or write does to known bytes; nothing where it failed |
| `fault_of`, `subcommand_of` (`clap`) | the kinds of error that it may give at these words; the subcommand that they name, with what they give its options |
| `Chain` (`http_server`) | calls that lead from one state of a service to the next |
| `IsCleared` (`http_server`) | all that a connection sent had been sent by a state of it that had made just these calls |
| `Rests` (`http_server`) | no whole request is left unanswered |
| `Bounds` (`grid_core/src/bounds.rt`) | the first column and row of some pixels, and the column and row behind their last ones |
| `Span` (`stroke_core/src/span.rt`) | pixels side by side on one row: the row, the first column, and the column where they end, itself left out |
| `Hint` (`border_queues/src/hint.rt`) | the tile that it comes from and that tile's generation then, the pixel that it goes to, and a value |
| `Ticket` (`tile_generations/src/ticket.rt`) | the tile of a job, its generation when it was taken, and a serial |
| `Ground` (`live_board/src/rule.rt`) | what a board stands on: mask, connectivity, and the generation in which it begins |
| `Encoding`, `Place` (`pgm_codec/src/grammar.rt`) | `Plain` or `Raw`; `Header`, where comments may stand, or `Raster`, where none may |
| `seen` (`byte_devices`) | what contracts see of a device: a `SourceSeen`, a `SinkSeen` |
| `Strokes` (`view_session/src/joining.rt`) | a state, with the connectivity, the fingerprint and the sides of the mask that it is for |
| `Keeps: makes, refuses` (`view_session/src/store.rt`) | what a keeper makes over the bytes that are found, and for which reason, never V2, it refuses them |
| `Kept: spells, has, takes, notes` (`page_service/src/kept.rt`) | of a service and the bytes of a file: they keep all of its state; it has all that they keep; it takes what they keep; and it is told that its file keeps it, or why not |
"""

# The files of which only private contracts cite words, each with the words that public ones cite all the same.
PRIVATE = {
    "pgm_codec": {"Reading": ()},
    "stroke_core": {"Held": ()},
    "stroke_lattice": {"Filling": (), "Growth": (), "Stored": ()},
    "spd_codec": {"Hashing": (), "Putting": (), "Reading": ()},
    "marker_tiles": {"Blocks": (), "InOrder": (), "Painting": (), "UnderTags": ("IsBlankOn",)},
    "raster_sweeps": {"Beside": (), "Corridors": (), "Flood": (), "Flooding": (), "Spans": (), "Trail": ()},
    "band_growth": {"Steps": ()},
    "border_queues": {"Borders": (), "Runs": ("WaitingRuns", "pixel_behind", "place_of", "IsToldAlong")},
    "live_board": {"Bands": (), "Blocks": (), "Flooding": (), "Following": (), "Planting": (), "Reading": (),
                   "Steps": ()},
    "tile_work": {"Along": ()},
    "derived_views": {"Rasters": ()},
    "tile_generations": {"Bases": ()},
    "core_rules": {"Stored": ()},
    "tiled_image": {"Shown": ("place_in", "value_in", "cell_in"), "TileParts": (), "SharedCopies": (), "AllKept": (),
                    "TiledImage": ("TiledRaster", "tiled_raster", "IsOfTiling"), "RaisedTiles": ("IsInner",),
                    "Rims": ("strip_at", "rank_of", "order_of", "start_of", "room_of", "strip_of", "place_of",
                             "rim_value", "IsRimOf", "AreRimsOf"),
                    "OwnRims": (), "Raising": ("greater_of", "IsBelowRim", "IsBelowInside"),
                    "Ring": ("HasRing", "HasRimmedRing"), "Beyond": ("IsSameBeyond", "IsRaisedOnRim")},
    "tiled_core": {"SharedStates": (), "Stored": (), "Patches": (), "Joining": ()},
    "core_dispatch": {"Resting": ()},
    "node_session": {"Working": ()},
    "page_board": {"Putting": (), "Strips": ()},
}

# The files whose words only the crates of the core cite.
CORE = {
    "tile_work": {"Linking": (), "Marks": (), "OpenBounds": (), "Renewing": (), "WorkTable": ()},
    "reset_core": {"Bounding": (), "MergeSteps": (), "Parts": (), "Replica": (), "Scheduling": (), "Settling": (),
                   "Sweeping": (), "Telling": ()},
}

# The crates of tests, and of programs that measure, stress or show.
TESTS = {"studio_example", "benchmarks", "thread_tests"}

Definition = collections.namedtuple("Definition", "name places comment")

DEFINITION = re.compile(r"( *)(abbrev pub|unfoldable pub|pub record|pub data|pub) (\S+)")
NOT_NAMES = {"true", "false", "zero", "refl", "tt", "_"}
LONGEST_TYPE = 28  # of a type that is shown in the place of a name


def split_top(text, mark):
    """A text cut at each mark that stands in no bracket."""
    parts, depth, begin = [], 0, 0
    for place, letter in enumerate(text):
        depth += (letter in "([{") - (letter in ")]}")
        if depth == 0 and letter == mark:
            parts.append(text[begin:place])
            begin = place + 1
    return [part.strip() for part in parts + [text[begin:]] if part.strip()]


def names_in(group):
    """The names that a group `(x y : T)` gives its places, and none where it is no such group."""
    found = re.fullmatch(r"\(([^():→×]+) : .*\)", group)
    return found[1].split() if found else []


def equation_name(equations, place):
    """The name that the equations give a place, if they do: a small one, or one that is the same in each of them."""
    patterns = [equation[place] for equation in equations if place < len(equation)]
    names = [one for one in patterns if re.fullmatch(r"[^\W\d]\w*'*", one) and one not in NOT_NAMES]
    same = names[:1] if len(set(patterns)) == 1 else []
    return next(iter(same + [name for name in names if name[0].islower()]), None)


def shown_type(text):
    """A type in the place of a name, if it is short."""
    text = text if re.fullmatch(r"\S+|\(.*\)", text) else f"({text})"
    return text if len(text) <= LONGEST_TYPE else "_"


def places_of_groups(header):
    """The names of the places that groups side by side have, up to a colon that stands in none."""
    groups = split_top(header, " ")
    return [name for group in groups[:(groups + [":"]).index(":")] for name in names_in(group)]


def places_of_signature(header, equations):
    """The names of the places of a function: those of its signature, or else those that its equations give."""
    places = []
    for part in split_top(header, "→")[:-1]:
        groups = [group for group in split_top(part, " ") if not group.startswith("{")]
        named = [name for group in groups for name in names_in(group)]
        if named:
            places += named
        elif groups:
            places.append(equation_name(equations, len(places)) or shown_type(" ".join(groups)))
    most = max((len(equation) for equation in equations), default=0)
    return places + [equation_name(equations, place) or "_" for place in range(len(places), most)]


def places_of(kind, name, lines):
    """The names of the places of a definition, from its header and from the left sides of its equations."""
    begins = [number for number, line in enumerate(lines) if re.match(rf" *{re.escape(name)} ", line)]
    header = " ".join(line.strip() for line in lines[:begins[0] if begins else len(lines)])
    header = header[header.index(name) + len(name):].strip()
    if kind in ("pub record", "pub data"):
        return places_of_groups(header)
    lefts = [lines[number].split(" =")[0].strip()[len(name):] for number in begins]
    equations = [[part for part in split_top(left, " ") if not part.startswith("{")] for left in lefts]
    return places_of_signature(header.removeprefix(":").strip(), equations)


def comment_above(lines, number):
    """The comment that ends above a line, as one text."""
    begin = number
    while begin and re.match(r" *-- (?!----)", lines[begin - 1]):
        begin -= 1
    return " ".join(line.strip().removeprefix("-- ") for line in lines[begin:number])


def definitions_of(lines):
    """The definitions of a file: name, places and comment of each."""
    found, outer, depth = [], [], 0
    for number, line in enumerate(lines):
        if line.startswith("module"):
            head = re.match(r"module _ (.*?) where\n", re.sub(r"\n +(?=[({])", " ", "\n".join(lines[number:]) + "\n"))
            outer, depth = places_of_groups(head[1]), 2
        elif line and not line.startswith(" "):
            outer, depth = [], 0
        definition = DEFINITION.match(line)
        if definition and len(definition[1]) == depth and definition[3] not in ("use", "mod"):
            end = next((n for n in range(number, len(lines)) if not lines[n].strip()), len(lines))
            places = places_of(definition[2], definition[3], lines[number:end])
            found.append(Definition(definition[3], outer + places, comment_above(lines, number)))
    return found


def row(name, text):
    """A row of a table."""
    cells = [cell.replace("|", "\\|") for cell in (name, text)]
    return f"| {cells[0]} | {cells[1]} |" if text else f"| {cells[0]} | |"


def row_of(one):
    """The row of a definition."""
    return row(f"`{' '.join([one.name, *one.places])}`", one.comment)


def mark_of(crate, name):
    """The mark of a file whose definitions are listed by their names, and those that are not; None for the others."""
    for mark, files in (("private", PRIVATE), ("core", CORE)):
        if name in files.get(crate, {}):
            return mark, files[crate][name]
    return ("tests", ()) if crate in TESTS else None


def rows_of(crate, path):
    """The rows of a file."""
    lines = path.read_text(encoding="utf-8").splitlines()
    begin = next(number for number, line in enumerate(lines) if not line.startswith("--"))
    about, found, marked = comment_above(lines, begin), definitions_of(lines), mark_of(crate, path.stem)
    if not marked:
        return [row(f"**`{path.name}`**", f"**{about}**"), *map(row_of, found)]
    mark, cited = marked
    names = ", ".join(f"`{one.name}`" for one in found if one.name not in cited)
    head = row(f"**`{path.name}`** ({mark})", f"**{about}** {names}")
    return [head, *(row_of(one) for one in found if one.name in cited)]


def section_of(crate):
    """The section of a crate, empty where it has no definitions."""
    folder = TOP / "crates" / crate / "specs"
    if not folder.is_dir():
        return ""
    names = re.findall(r"^pub mod (\w+)", (folder / "Lib.antt").read_text(encoding="utf-8"), re.M)
    rows = [line for name in names for line in rows_of(crate, folder / f"{name}.antt")]
    return "\n".join(["", f"## `{crate}`", "", "| Name | In words |", "|---|---|", *rows, ""]) if rows else ""


def page():
    """The whole page."""
    lines = (TOP / "crates.txt").read_text(encoding="utf-8").splitlines()
    crates = [re.split(r"[ :]", line)[0] for line in lines if line and not line.startswith("#")]
    return HEAD + "".join(section_of(crate) for crate in crates)


def main():
    """Write the page, or check it."""
    parser = argparse.ArgumentParser(description="Write docs/DEFINITIONS.md from the comments of the definitions.")
    parser.add_argument("--check", action="store_true", help="write nothing; status 1 where the page is another")
    words = parser.parse_args()
    text = page()
    if not words.check:
        TARGET.write_text(text, encoding="utf-8")
    elif not TARGET.is_file() or TARGET.read_text(encoding="utf-8") != text:
        sys.exit(f"definitions.py: {TARGET} is not up to date; run it without --check")


if __name__ == "__main__":
    main()
