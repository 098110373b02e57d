"""The systems that a release is for: what is built for each, where that lies, and by which tools."""
from typing import NamedTuple

PROGRAM = "crates/ipxr/out/ipxr"
# The headers of the library for C.
HEADERS = ("ipxr.h", "ipxr_tunnel.h", "ipxr_keyed.h", "ipxr_segment.h", "ipxr_plan.h", "ipxr_settings.h", "ipxr_fair.h", "ipxr_limits.h",
           "ipxr_cable.h", "ipxr_configuration.h", "ipxr_fates.h", "ipxr_edge.h", "ipxr_peers.h")


class System(NamedTuple):
    """A system: its name, the folder of what is built for it, its programs, how the names of its tools begin, what of make builds it (the
    one of this machine is built by several), for which processors, Debian's names for it, and whether it has the library for C."""

    name: str
    folder: str
    program: str
    gateway: str
    tools: str
    target: str
    processor: str
    debian: str = ""
    multiarch: str = ""
    has_library: bool = True

    def tool(self, name):
        return f"{self.tools}{name}"

    @property
    def compiler(self):
        return self.tool("gcc") if self.tools else "cc"

    @property
    def headers(self):
        return [f"{self.folder}/{it}" for it in HEADERS] if self.has_library else []

    @property
    def archive(self):
        return f"{self.folder}/libipxr.a"

    def shared(self, version):
        """The shared library's file, and the name by which programs ask for it."""
        return f"libipxr.so.{version}", f"libipxr.so.{version.split('.')[0]}"

    def programs(self, version):
        """What the system loads."""
        library = f"{self.folder}/ipxr.dll" if self is WINDOWS else f"{self.folder}/{self.shared(version)[0]}"
        return [self.program, self.gateway, *([library] if self.has_library else [])]

    def built(self, version):
        """All files that are packed, each with the command that builds it."""
        library = [self.archive, *self.headers, *self.programs(version)[2:]] if self.has_library else []
        library += [f"{self.folder}/{it}" for it in IMPORTS] if self is WINDOWS else []
        how = [f"make {self.target}"] * 3 if self.target else ["make build", "make gateway", "make embed"]
        return {self.program: how[0], self.gateway: how[1], **dict.fromkeys(library, how[2])}


# By what programs for Windows find the library that is loaded with them: mingw's linker and Microsoft's.
IMPORTS = ("libipxr.dll.a", "ipxr.lib")

LINUX = System("linux-x86_64", "build", PROGRAM, "build/ipxr-gateway", "", "", "", "amd64", "x86_64-linux-gnu")
ARM = System(
    "linux-aarch64",
    "build/aarch64",
    "build/aarch64/ipxr",
    "build/aarch64/ipxr-gateway",
    "aarch64-linux-gnu-",
    "aarch64",
    "any 64-bit ARM",
    "arm64",
    "aarch64-linux-gnu",
)
WINDOWS = System(
    "windows-x86_64",
    "build/windows",
    "build/windows/ipxr.exe",
    "build/windows/ipxr-gateway.exe",
    "x86_64-w64-mingw32-",
    "windows",
    "any x86-64",
)
# (the program and the gateway alone, of the portable C)
ARM32 = System(
    "linux-armhf",
    "build/arm",
    "build/arm/ipxr",
    "build/arm/ipxr-gateway",
    "arm-linux-gnueabihf-",
    "arm",
    "32-bit ARM from ARMv7 on, with VFPv3",
    has_library=False,
)
SYSTEMS = (LINUX, ARM, ARM32, WINDOWS)


class Sources(NamedTuple):
    """C for any other system: the name of its archive, a file that is there where it is built, and the command that builds it."""

    name: str
    file: str
    how: str


PORTABLE = Sources("portable-c", "build/portable/ipxr.c", "make portable")
LIBRARY = Sources("portable-library", "build/library/libipxr.c", "make library")
GATEWAY = Sources("gateway-sources", "build/gateway-sources/Makefile", "tools/gateway sources")
IN_C = (PORTABLE, LIBRARY, GATEWAY)
