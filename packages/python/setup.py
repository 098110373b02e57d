"""Compiles the library, which is one file of C, into the package. It is loaded by ctypes, and no module of Python's: it needs none of
Python's headers, and one build serves every Python of version 3 on a system."""
import glob
import os
import re

from setuptools import Extension, setup
from setuptools.command.build_ext import build_ext

try:
    from setuptools.command.bdist_wheel import bdist_wheel
except ImportError:
    from wheel.bdist_wheel import bdist_wheel

SOURCES = "src/c"
CALL = re.compile(r"(?m)^IPXR_CALL .*?\b(ipxr_\w+)\(")


def calls():
    """The names that the headers have: a compiler for Windows wants to be told."""
    found = []
    for name in sorted(glob.glob(f"{SOURCES}/*.h")):
        with open(name, encoding="ascii") as it:
            found += CALL.findall(it.read())
    return found


class Shared(build_ext):
    """A shared library instead of a module."""

    def get_export_symbols(self, ext):
        return ext.export_symbols

    def get_ext_filename(self, fullname):
        return os.path.join(*fullname.split(".")) + (".dll" if os.name == "nt" else ".so")


class Wheel(bdist_wheel):
    """A wheel for any Python of version 3 on this system."""

    def get_tag(self):
        return ("py3", "none", super().get_tag()[2])


LIBRARY = Extension("ipxr._native", [f"{SOURCES}/libipxr.c"], include_dirs=[SOURCES], export_symbols=calls())
setup(ext_modules=[LIBRARY], cmdclass={"build_ext": Shared, "bdist_wheel": Wheel})
