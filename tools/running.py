"""How the tools in this folder run: faults, words of the command line, and what they say meanwhile."""

import argparse
import pathlib
import sys
import time

START = time.monotonic()


class Fault(Exception):
    """What ends a tool, in one line."""


def tell(step):
    """Say on standard error how far the work is, once it has taken a second."""
    if time.monotonic() - START > 1:
        print(f"{pathlib.Path(sys.argv[0]).name}: {step}", file=sys.stderr, flush=True)


def run(main):
    """Run a tool: 0, or 1 with the one line of a fault. Wrong words end it with 2, by argparse."""
    try:
        main()
        sys.stdout.flush()
        return 0
    except Fault as why:
        line = str(why)
    except MemoryError:
        line = "out of memory"
    except OSError as why:
        line = f"{why.filename}: {why.strerror}" if why.filename else str(why)
    print(f"{pathlib.Path(sys.argv[0]).name}: {line}", file=sys.stderr)
    return 1


LIBRARIES = {"PIL": "python3-pil"} | {name: f"python3-{name}" for name in ("numpy", "scipy", "skimage", "tifffile")}


def without(missing):
    """End a tool for which a library is missing, with a line that names its Debian package."""
    library = (missing.name or "").partition(".")[0]
    if library not in LIBRARIES:
        raise missing
    sys.exit(f"{pathlib.Path(sys.argv[0]).name}: {sys.executable} has no {library}: install Debian's package "
             f"{LIBRARIES[library]}, and call the tool by /usr/bin/python3, which sees it")


def level_of(word):
    """A level of the command line."""
    if not word.isascii() or not word.isdigit() or not 1 <= int(word) <= 65535:
        raise argparse.ArgumentTypeError("a level is a number from 1 to 65535")
    return int(word)
