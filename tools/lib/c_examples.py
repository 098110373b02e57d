"""The examples in C of the library, built by some compiler, run by what runs its programs, and compared with what is kept. All of it
works at the top of the repository."""
import os

from c_library import FLAGS
from telling import ends, prints, succeeds, tell

KEPT = "examples/embed"
EXAMPLES = ("two_networks", "answers", "fields", "services", "tunnel", "tunnel_fields", "keyed", "segment", "segment_fields", "joined",
            "fair", "limits", "filters", "static_routes")
COUNTED = ("refusals", "blocks", "tunnel_blocks", "keyed_blocks", "segment_blocks")


def kept_of(program):
    of_c = f"{KEPT}/c/{program}.out"
    return of_c if os.path.exists(of_c) else f"{KEPT}/{program}.out"


def examples(name, compiler, folder, runner=(), library="libipxr.a"):
    """Builds the examples with the library of a folder, and compares what they print."""
    for program in EXAMPLES:
        made = f"{folder}/{program}.exe"
        tell(f"{name}: {program} is built",
            succeeds(*compiler, "-std=c99", *FLAGS, f"{KEPT}/c/{program}.c", f"{folder}/{library}", "-o", made))
        tell(f"{name}: {program} prints what is kept", prints(kept_of(program), *runner, made))


def counted_examples(name, compiler, folder, flags=(), runner=(), library="libipx_c.a"):
    """The same for programs with an allocator of their own, which counts and refuses: they say what they saw, and must end well."""
    for program in COUNTED:
        made = f"{folder}/{program}.exe"
        tell(f"{name}: {program} is built with an allocator of its own{' and the sanitizers' if flags else ''}",
            succeeds(*compiler, "-std=c99", *FLAGS, *flags, f"{KEPT}/c/{program}.c", f"{folder}/{library}", "-o", made))
        tell(f"{name}: {program} prints what is kept", prints(f"{KEPT}/c/{program}.out", *runner, made))


def thread(name, compiler, folder, runner=(), library="libipxr.a"):
    """Whether the stack that the header names is enough for a thread."""
    made = f"{folder}/stack.exe"
    is_built = succeeds(*compiler, "-std=c99", *FLAGS, "tests/embed/stack.c", f"{folder}/{library}", "-pthread", "-o", made)
    tell(f"{name}: a thread has enough stack", is_built and ends(*runner, made))
