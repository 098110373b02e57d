"""The library that the package calls: the one that was compiled with it, or, where IPXR_LIBRARY names one, another shared library of this
version, such as libipxr.so.1."""
import ctypes
import os

from . import raw

NAMES = ("_native.so", "_native.dll")
MAJOR = 65536


def path() -> str:
    """The file of the library."""
    if own := os.environ.get("IPXR_LIBRARY"):
        return own
    folder = os.path.dirname(os.path.realpath(__file__))
    found = [it for it in (os.path.join(folder, name) for name in NAMES) if os.path.exists(it)]
    if not found:
        raise ImportError("the library isn't compiled: install the package, or name a shared library by IPXR_LIBRARY")
    return found[0]


def load() -> raw.Calls:
    """Its calls, if it is of a version that has those of this package."""
    loaded = raw.Calls(ctypes.CDLL(path()))
    version = loaded.ipxr_version()
    if version // MAJOR != raw.IPXR_VERSION // MAJOR or version < raw.IPXR_VERSION:
        raise ImportError(f"the library is of version {version}, and {raw.IPXR_VERSION} is needed")
    return loaded


calls = load()
