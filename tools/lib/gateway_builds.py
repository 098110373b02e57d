"""How the gateway is compiled, at the top of the repository: for each system, and as its tests want it: with calls of the system that fail,
with a clock that the test sets, and on a made-up system."""
import glob
import os
from typing import NamedTuple

import windows_resource
from telling import left_out, quietly, say, succeeds

TESTS = "tests/gateway"
CC, AARCH64, WINDOWS = "cc", "aarch64-linux-gnu-gcc", "x86_64-w64-mingw32-gcc"
FLAGS = ["-std=c99", "-Wall", "-Wextra", "-pedantic", "-D_POSIX_C_SOURCE=200809L", "-Igateway"]
SANITIZERS = ["-O1", "-g", "-fsanitize=address,undefined", "-fno-sanitize-recover=all"]
# The folders of gateway/systems that a system is made of: what any Unix has, what it has beside that, what it lacks.
LINUX, POSIX, OF_WINDOWS = ("unix", "linux"), ("unix", "posix", "cardless"), ("windows",)
ONE_FILE = "build/library/libipxr.c"
# (a program that is linked statically can't load a library while it runs, and says so)
STATIC = ("-static", "-DSTANDS_ALONE")
# (with 32 bits the GNU C library counts the seconds of the date, and the bytes of a file, in as many unless it is told)
WIDE = ["-D_FILE_OFFSET_BITS=64", "-D_TIME_BITS=64"]
# (what isn't static finds the C library where the cross compiler has it)
FOUND_THERE = ("-Wl,--dynamic-linker=/usr/i686-linux-gnu/lib/ld-linux.so.2", "-Wl,-rpath,/usr/i686-linux-gnu/lib")
WHAT = "Routes IPX between DOSBox, emulators and Ethernet"  # as Windows shows it
# (Windows' own texts for the command line; neither a time nor a name of what was compiled where)
FLAGS_OF_WINDOWS = ["-municode", "-s", "-Wl,--no-insert-timestamp"]
LIBRARIES_OF_WINDOWS = ["-liphlpapi", "-lws2_32"]

# The calls of the system that tests/gateway/trouble.c stands in front of, and the one by which somebody wants a reload.
TROUBLED = """
    socket bind getsockname setsockopt getsockopt connect listen accept recv recvmsg recvmmsg send sendto sendmmsg poll open close read write
    ioctl fcntl clock_gettime fopen fdopen malloc calloc realloc open_memstream getrandom getifaddrs
    reload_for""".split()
# The calls that tests/gateway/made_up stands in front of: memory, and what each packet passes.
WATCHED = """
    malloc calloc realloc free fclose gateway_open gateway_change tunnel_hear ether_hear status_hears loop_hears outgoing_copy
    outgoing_own cable_send_all edge_lets_out segment_repeat ipxr_packet ipxr_keyed_hear ipxr_keyed_receiver ipxr_segment_receiver""".split()


def sources(*folders):
    return [file for folder in folders for file in sorted(glob.glob(f"{folder}/*.c"))]


def common_sources():
    """What is the same on every system; beside it, each has its own in gateway/systems."""
    return sources("gateway", "gateway/*")


def system_sources(folders):
    return sources(*(f"gateway/systems/{it}" for it in folders))


def library_in(folder):
    """The library that was put into a folder: an archive, or what a compiler made of the one file."""
    archive = f"{folder}/libipxr.a"
    return archive if os.path.exists(archive) else f"{folder}/libipxr.o"


def wraps(calls):
    return [f"-Wl,--wrap={it}" for it in calls]


def builds(name, *more, compiler=CC, folder="build", system=LINUX):
    """The gateway of a Linux, or of what it plays, with more flags and files."""
    return succeeds(compiler, *FLAGS, "-pthread", f"-I{folder}", "-Iinclude", *more, *common_sources(), *system_sources(system),
        library_in(folder), "-o", f"{folder}/{name}")


def builds_aarch64():
    is_there = os.path.exists("build/aarch64/libipxr.a") or succeeds("tools/platforms", "aarch64")
    return is_there and builds("ipxr-gateway", "-O2", *STATIC, compiler=AARCH64, folder="build/aarch64")


def builds_windows():
    folder = "build/windows"
    is_there = os.path.exists(f"{folder}/libipxr.a") or succeeds("tools/platforms", "windows")
    return is_there and windows_resource.builds(folder, "ipxr-gateway", WHAT) and \
        succeeds(WINDOWS, *FLAGS, f"-I{folder}", "-Iinclude", "-O2", *FLAGS_OF_WINDOWS, *common_sources(), *system_sources(OF_WINDOWS),
            f"{folder}/ipxr-gateway.res.o", f"{folder}/libipxr.a", *LIBRARIES_OF_WINDOWS, "-o", f"{folder}/ipxr-gateway.exe")


class Kind(NamedTuple):
    """A gateway over the library as one file of C: its compiler, the folders of its system, its flags, those of the program that is
    delivered and those of what only tests run, and what runs it here."""

    compiler: str
    system: tuple = LINUX
    flags: tuple = ()
    delivered: tuple = ()
    tested: tuple = ()
    runner: str = ""


# (what macOS shows beside POSIX shows by a word of its own, which mustn't change anything elsewhere)
OF_ONE_FILE = {
    "posix": Kind(CC, POSIX, ("-D_DARWIN_C_SOURCE",)),
    "musl": Kind("musl-gcc", POSIX),
    "i686": Kind("i686-linux-gnu-gcc", LINUX, (), (*WIDE, *STATIC), FOUND_THERE),
    "arm": Kind("arm-linux-gnueabihf-gcc", LINUX, (), (*WIDE, *STATIC), (), "qemu-arm"),
}


def builds_library(kind, folder):
    """The library as one file, compiled, with its headers beside it."""
    if not os.path.exists(ONE_FILE):
        say(f"{ONE_FILE} is missing: make library")
        return False
    os.makedirs(folder, exist_ok=True)
    headers = glob.glob("build/library/*.h")
    return succeeds("cp", *headers, folder) and succeeds(kind.compiler, "-std=c99", "-O2", "-c", ONE_FILE, "-o", f"{folder}/libipxr.o")


def builds_of_one_file(name):
    """The gateway of a kind in a folder of its own, as it is delivered."""
    kind, folder = OF_ONE_FILE[name], f"build/{name}"
    return builds_library(kind, folder) and \
        builds("ipxr-gateway", "-O2", *kind.flags, *kind.delivered, compiler=kind.compiler, folder=folder, system=kind.system)


# ---- For the tests ----


def has_sanitizers():
    """Whether programs with the sanitizers can be built and run here."""
    made = "build/empty"
    return quietly(CC, *SANITIZERS, "-x", "c", "-", "-o", made, input=b"int main(void) { return 0; }") and quietly(made)


def builds_troubled(compiler, folder, flags, system=LINUX, always=()):
    """The builds with calls that fail, and a clock that the test sets."""
    more = [*wraps(TROUBLED), f"{TESTS}/trouble.c", *always]
    return builds("ipxr-gateway-troubled", *flags, *more, compiler=compiler, folder=folder, system=system) and \
        builds("ipxr-gateway-fast", "-O2", *more, compiler=compiler, folder=folder, system=system)


def builds_siphash(compiler, made, flags):
    """The program that compares the hash with what was published."""
    return succeeds(compiler, *FLAGS, *flags, f"{TESTS}/siphash.c", "gateway/siphash.c", "-o", made)


def builds_limits(compiler, folder, flags, end=""):
    """The programs that try the limits by a clock of their own."""
    files = [*sources("gateway/limits"), "gateway/tunnel/roster.c", "gateway/siphash.c"]
    return all(succeeds(compiler, *FLAGS, *flags, f"-I{folder}", "-Iinclude", f"{TESTS}/{name}.c", *files, library_in(folder),
        "-o", f"{folder}/{name}{end}") for name in ("queues", "minutes"))


def builds_made_up(flags):
    """The gateway's own code on a made-up system. A file of tests/gateway/made_up/inside_*.c has one of the gateway's in it."""
    made_up = f"{TESTS}/made_up"
    files = [it for it in common_sources() if not os.path.exists(f"{made_up}/inside_{os.path.basename(it)}")]
    return succeeds(CC, *FLAGS, "-pthread", "-Ibuild", "-Iinclude", *flags, *wraps(WATCHED), *sources(made_up), *files,
        "build/libipxr.a", "-o", "build/made-up")


def builds_sanitized():
    """The gateway with the sanitizers as far as they are there; else none is left, which is told. Returns the flags for the tests' other
    builds, or nothing where it isn't built."""
    if has_sanitizers():
        return SANITIZERS if builds("ipxr-gateway-sanitized", *SANITIZERS) else None
    if os.path.exists("build/ipxr-gateway-sanitized"):
        os.remove("build/ipxr-gateway-sanitized")
    left_out("gateway: the sanitizers", "-fsanitize=address that runs")
    return ["-O2"]


def builds_for_tests():
    """All builds that the tests of this machine's gateway want."""
    flags = builds_sanitized()
    return flags and builds_siphash(CC, "build/siphash", flags) and builds_limits(CC, "build", flags) and \
        builds_troubled(CC, "build", flags) and builds_made_up(flags)


def builds_for_aarch64():
    folder, flags = "build/aarch64", ["-O2"]
    return builds_aarch64() and builds_siphash(AARCH64, f"{folder}/siphash", flags) and builds_limits(AARCH64, folder, flags) and \
        builds_troubled(AARCH64, folder, flags)


def builds_sanitized_of(name):
    """The same with the sanitizers where its compiler is this machine's, and they are there. Returns the flags for the tests' other builds,
    or nothing where it isn't built."""
    kind, folder = OF_ONE_FILE[name], f"build/{name}"
    flags = [*SANITIZERS, *kind.flags]
    if kind.compiler != CC or not has_sanitizers():
        return ["-O2", *kind.flags, *kind.tested]
    return flags if builds("ipxr-gateway-sanitized", *flags, folder=folder, system=kind.system) else None


def builds_for_one_file(name):
    """All builds that the tests of a kind want. (those with calls that fail stand before the C library's own: they aren't static, nor do
    they have other calls for wide numbers)"""
    kind, folder = OF_ONE_FILE[name], f"build/{name}"
    flags = builds_of_one_file(name) and builds_sanitized_of(name)
    return flags and builds_siphash(kind.compiler, f"{folder}/siphash", flags) and builds_limits(kind.compiler, folder, flags) and \
        builds_troubled(kind.compiler, folder, flags, kind.system, (*kind.flags, *kind.tested))


def builds_for_windows():
    folder, flags = "build/windows", ["-O2"]
    return builds_windows() and builds_siphash(WINDOWS, f"{folder}/siphash.exe", flags) and \
        builds_limits(WINDOWS, folder, flags, ".exe") and \
        succeeds(WINDOWS, *FLAGS, *flags, f"{TESTS}/console.c", "-o", f"{folder}/console.exe") and builds_stub(f"{folder}/stub")


def builds_stub(folder):
    """The DLL that stands in Npcap's place."""
    os.makedirs(folder, exist_ok=True)
    return succeeds(WINDOWS, "-std=c99", "-Wall", "-Wextra", "-O2", "-shared", f"{TESTS}/wpcap.c", "-lws2_32", "-o", f"{folder}/wpcap.dll")
