"""The docstrings: their examples, their form, and the types beside them."""

import doctest
import importlib
import inspect
import pathlib
import pkgutil
import subprocess
import sys
import unittest

import seedpaint

try:
    from numpydoc.validate import validate
except ImportError:
    validate = None

try:
    import mypy
except ImportError:
    mypy = None

# What its validation asks for and is not kept: a summary on the second line, and three
# sections that a small method does not need.
NOT_KEPT = {"GL01", "SA01", "EX01", "ES01"}


def public():
    """The public functions, classes and methods, by name."""
    for name in seedpaint.__all__:
        thing = getattr(seedpaint, name)
        yield f"seedpaint.{name}", thing
        for member, method in inspect.getmembers(thing, inspect.isfunction):
            if inspect.isclass(thing) and not member.startswith("_"):
                yield f"seedpaint.{name}.{member}", method


def modules():
    """The modules of the package."""
    yield seedpaint
    for found in pkgutil.iter_modules(seedpaint.__path__):
        if found.name != "libseedpaint":
            yield importlib.import_module(f"seedpaint.{found.name}")


class Docstrings(unittest.TestCase):
    def test_examples(self):
        tried = 0
        for module in modules():
            failed, count = doctest.testmod(module)
            self.assertEqual(failed, 0, module)
            tried += count
        self.assertGreater(tried, 20)

    def test_each_public_thing_has_one(self):
        for name, thing in public():
            self.assertTrue(inspect.getdoc(thing), name)

    def test_parameters_are_those_of_the_signature(self):
        for name, thing in public():
            doc = inspect.getdoc(thing)
            signature = inspect.signature(thing)
            for parameter in signature.parameters:
                if parameter != "self":
                    self.assertRegex(doc, rf"(?m)^(\w+, )*{parameter}(, \w+)* : ", name)

    @unittest.skipIf(validate is None, "numpydoc is not installed")
    def test_the_form_of_numpydoc(self):
        for name, _ in public():
            errors = [e for e in validate(name)["errors"] if e[0] not in NOT_KEPT]
            self.assertEqual(errors, [], name)


class Types(unittest.TestCase):
    def test_the_marker_is_in_the_package(self):
        folder = pathlib.Path(seedpaint.__file__).parent
        self.assertTrue((folder / "py.typed").exists())

    @unittest.skipIf(mypy is None, "mypy is not installed")
    def test_mypy_is_content(self):
        folder = str(pathlib.Path(seedpaint.__file__).parent)
        words = [sys.executable, "-m", "mypy", "--strict", "--cache-dir=/dev/null"]
        done = subprocess.run(
            [*words, folder], capture_output=True, text=True, check=False
        )
        self.assertEqual(done.returncode, 0, done.stdout)


if __name__ == "__main__":
    unittest.main()
