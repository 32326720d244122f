"""The wheel has a shared library for x86-64, and asks for no Python of one kind."""

from setuptools import Distribution, setup

try:
    from setuptools.command.bdist_wheel import bdist_wheel
except ImportError:  # (setuptools before 70)
    from wheel.bdist_wheel import bdist_wheel


class Wheel(bdist_wheel):
    """A wheel for any Python 3 on Linux with glibc 2.17 or later."""

    def get_tag(self):
        return "py3", "none", "manylinux_2_17_x86_64"


class WithLibrary(Distribution):
    """A package that is not of Python alone, so that it is installed with such ones."""

    def has_ext_modules(self):
        return True


setup(cmdclass={"bdist_wheel": Wheel}, distclass=WithLibrary)
