"""What the tests of the tools in this folder share: calls of tools, files in a folder of their own, and refusals."""

import contextlib
import importlib
import io
import pathlib
import tempfile
import time
import unittest
import unittest.mock

import running
from running import without

try:
    import numpy
    import tifffile
    from PIL import Image
except ModuleNotFoundError as missing:
    without(missing)

TOOLS = pathlib.Path(__file__).resolve().parent
TOP = TOOLS.parent


def tool(name, *words):
    """Status, standard output and standard error of a tool, which runs within this process."""
    main = importlib.import_module(name.removesuffix(".py")).main
    text, fault = io.StringIO(), io.StringIO()
    running.START = time.monotonic()
    with (contextlib.redirect_stdout(text), contextlib.redirect_stderr(fault),
          unittest.mock.patch("sys.argv", [name, *map(str, words)])):
        try:
            status = running.run(main)
        except SystemExit as end:  # (of argparse)
            status = end.code
    return status, text.getvalue(), without_progress(fault.getvalue())


def without_progress(text):
    """What was said on standard error, without the steps that slow machines show."""
    steps = (" runs", "live strokes on", "are flooded", "have their strokes", ": read ")
    return "".join(line + "\n" for line in text.splitlines() if not any(step in line for step in steps))


def pgm(samples, top=255):
    """The raw PGM file of rows of samples."""
    array = numpy.array(samples)
    head = f"P5\n{array.shape[1]} {array.shape[0]}\n{top}\n".encode()
    return head + array.astype(">u2" if top > 255 else "u1").tobytes()


class InFolder(unittest.TestCase):
    """A test with a folder of its own."""

    def setUp(self):
        folder = tempfile.TemporaryDirectory()
        self.addCleanup(folder.cleanup)
        self.folder = pathlib.Path(folder.name)

    def put(self, name, content):
        """Write a file into the folder: bytes, text, or an array as PNG or TIFF."""
        path = self.folder / name
        if isinstance(content, bytes):
            path.write_bytes(content)
        elif isinstance(content, str):
            path.write_text(content, encoding="ascii")
        elif path.suffix == ".png":
            Image.fromarray(content).save(path)
        else:
            is_colour = content.ndim == 3 and content.shape[2] in (3, 4)
            tifffile.imwrite(path, content, photometric="rgb" if is_colour else "minisblack")
        return path

    def refused(self, name, words, line, status=1):
        """Check that a tool ends with this status and one line that has this text."""
        found, text, fault = tool(name, *words)
        self.assertEqual((found, text), (status, ""), fault)
        self.assertIn(line, fault)
        if status == 1:
            self.assertEqual(fault.count("\n"), 1)
