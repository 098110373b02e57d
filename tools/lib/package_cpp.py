"""The package for C++: headers over the library as one file of C, which CMake builds, or any compiler."""
import glob
import os
import re
import shutil
import tarfile

import package_layers
import packages
from c_library import CC, put, text_of
from libraries import TOP
from systems import HEADERS
from telling import has, left_out, tell

SOURCES, TESTS = f"{TOP}/packages/cpp", f"{TOP}/tests/packages"
# Calls and numbers that the headers for C++ don't name, and why. All are in the headers of C, which they include.
LEFT_OUT = {
    r"ipxr_word": "ipxr_text, which is in the header, is the same for a text",
    r"IPXR_(MOST_(PORTS|ROUTES|SERVICES|CLIENTS|LINKS|STATIONS|PLANNED|STEPS|RULES|TIME|PEERS)|(PLAN_)?STACK|LIFETIME|SPEAKERS|ALL_\w+|"
    r"PACKET_(ROUTES|SERVICES)|SHORTEST_FRAME)": "sizes, which a program names where it needs them",
    r"IPXR_(STARTED|STOPPED|TICKED|LEARNED|ANSWERED|FORWARDED|PROPAGATED|WENT_DOWN|CAME_UP|ALREADY_\w+|NOT_RUNNING|MALFORMED_\w+|OWN_ECHO|"
    r"BAD_\w+|CROSSED_\w+|ELSEWHERE|OTHER_SOCKET|NOT_NEIGHBOUR|NEAREST_REPLY|TOO_MANY_ROUTERS|FAR_SIDE|NO_ROUTE|TOO_LONG|DOWN_PORT|LAST_DROP|"
    r"NO_(ROUTER|PORT|RECORD|PORTS|ENTRIES|TUNNEL|SEGMENT|LINK)|SHORT_BUFFER|OUT_OF_MEMORY|MANY_\w+|SAME_NETWORK|LONG_PACKET)":
        "an Answer is compared with it",
    r"IPXR_(RIP|SAP)_(SOCKET|REQUEST|RESPONSE)": "a packet is written with it",
    r"IPXR_(NO_REASON|DROPS)": "how many there are",
    r"IPXR_(NO_ONE|CARRIER_\w+|TUNNEL_(ABSENT|STAYS|AGAIN|NEW))": "a plan's links are given as C has them",
    r"IPXR_(EXPECTED|SETTING|OVER|CARDS)_\w+|IPXR_FRAME_ANY": "what a line of a configuration says, and on which system, is told as C has it",
    r"ipxr_peers_\w+|IPXR_PEERS_\w+": "gateways that share a network call it from C",
    r"IPXR_NEXT_(?!END)\w+|IPXR_LOST_\w+": "whoever answers what is next names it",
}
STRICT = ["-Wall", "-Wextra", "-pedantic", "-Wconversion", "-Werror"]
COMPILERS = ("g++", "clang++")
STANDARDS = ("c++11", "c++20")
SANITIZED = ["-fsanitize=address,undefined", "-fno-sanitize-recover=all", "-g"]
EXAMPLE = re.compile(r"(?ms)^/// ```cpp\n(.*?)^/// ```$")
SHOWN = re.compile(r"(?ms)^```cpp\n(.*?)^```$")
EXAMPLES = """\
// The examples of the headers' comments, one function each.
#undef NDEBUG
#include <cassert>
#include <cstdio>

#include <ipxr.hpp>
"""
CONSUMER = """\
cmake_minimum_required(VERSION 3.13)
project(consumer LANGUAGES CXX)
find_package(ipxr {release} REQUIRED)
add_executable(story story.cpp)
target_link_libraries(story PRIVATE ipxr::ipxr)
"""
WITHIN = """\
cmake_minimum_required(VERSION 3.13)
project(within LANGUAGES CXX)
add_subdirectory({folder} ipxr)
add_executable(story story.cpp)
target_link_libraries(story PRIVATE ipxr::ipxr)
"""


def make(folder):
    """Puts the package into a folder."""
    packages.copy_sources("cpp", folder)
    packages.copy_library(f"{folder}/include")
    os.makedirs(f"{folder}/src")
    shutil.move(f"{folder}/include/libipxr.c", f"{folder}/src/libipxr.c")


def headers():
    return sorted(glob.glob(f"{SOURCES}/include/ipxr/*.hpp"))


def upper():
    """The text of the headers, without comments."""
    return re.sub(r"(?m)//.*$", "", "".join(text_of(it) for it in headers()))


# ---- The package, away from here ----


def packed(folder, to):
    """The folder that comes out of an archive of the package."""
    name = f"ipxr-cpp-{packages.release()}"
    with tarfile.open(f"{to}/{name}.tar.gz", "w:gz") as it:
        it.add(folder, name)
    shutil.unpack_archive(f"{to}/{name}.tar.gz", to)
    return f"{to}/{name}"


def examples():
    """A program of all examples in the comments of the headers."""
    functions, count = [], 0
    for file in headers():
        for found in EXAMPLE.findall(text_of(file)):
            count += 1
            lines = "".join(f"    {re.sub('^/// ?', '', line)}\n" for line in found.splitlines())
            functions.append(f"static void example_{count}()\n{{\n{lines}}}\n")
    calls = "".join(f"    example_{number}();\n" for number in range(1, count + 1))
    return EXAMPLES + "\n" + "\n".join(functions) + f"\nint main()\n{{\n{calls}    return 0;\n}}\n", count


def compilers(package, to):
    """The story by each compiler and standard, with exceptions and without, and the examples of the comments."""
    text, count = examples()
    put(f"{to}/examples.cpp", text)
    library = f"{to}/libipxr.o"
    words = [CC, "-O2", "-std=c99", f"-I{package}/include", "-c", f"{package}/src/libipxr.c", "-o", library]
    tell("cpp: the library is compiled", packages.runs(*words))
    for compiler in COMPILERS:
        if not has(compiler):
            left_out(f"cpp: {compiler}", compiler)
            continue
        for standard in STANDARDS:
            with_compiler(compiler, standard, package, to, library, count)
    if has("g++"):
        alone(package, to)
        programs(package, to, library)
        words = ["g++", "-std=c++11", *SANITIZED, f"-I{package}/include", f"{to}/examples.cpp", library, "-o", f"{to}/examples"]
        tell("cpp: the examples of the comments under the sanitizers", packages.runs(*words) and packages.runs(f"{to}/examples"))


def with_compiler(compiler, standard, package, to, library, count):
    words = [compiler, f"-std={standard}", *STRICT, f"-I{package}/include"]
    for more in ((), ("-fno-exceptions", "-fno-rtti")):
        name, made = " ".join(("cpp:", compiler, standard, *more)), f"{to}/story.exe"
        if packages.runs(*words, *more, f"{package}/examples/story.cpp", library, "-o", made):
            packages.tells_story(name, made)
        else:
            tell(f"{name}: the story is compiled without a warning", False)
    made = f"{to}/examples.exe"
    is_built = packages.runs(*words, "-Wno-unused-variable", f"{to}/examples.cpp", library, "-o", made)
    tell(f"cpp: {compiler} {standard}: {count} examples of the comments", count > 20 and is_built and packages.runs(made))


def alone(package, to):
    """Whether each header has all that it needs."""
    lacking = []
    for file in sorted(glob.glob(f"{package}/include/ipxr/*.hpp")):
        put(f"{to}/alone.cpp", f'#include "{file}"\n')
        if not packages.runs("g++", "-std=c++11", *STRICT, f"-I{package}/include", "-fsyntax-only", f"{to}/alone.cpp"):
            lacking.append(file)
    tell("cpp: each header stands alone", not lacking)


def programs(package, to, library):
    """What the package's page shows, made-up events under the sanitizers, and a server."""
    words, made = ["g++", "-std=c++11", *STRICT, f"-I{package}/include"], f"{to}/program"
    shown, = SHOWN.findall(text_of(f"{package}/README.md"))
    put(f"{to}/shown.cpp", shown)
    tell("cpp: the program on the package's page", packages.runs(*words, f"{to}/shown.cpp", library, "-o", made) and packages.runs(made))
    if packages.runs(*words, *SANITIZED, *sorted(glob.glob(f"{TESTS}/cpp/*.cpp")), library, "-o", made):
        packages.plays_made_up("cpp", made)
    else:
        tell("cpp: the program that makes up events is compiled without a warning", False)
    is_built = packages.runs(*words, f"{package}/examples/server.cpp", library, "-o", made)
    tell("cpp: the server serves two players", is_built and packages.runs("python3", f"{TESTS}/players.py", made))


def by_cmake(package, to):
    """What CMake builds and installs, and programs that find it: by CMake, by pkg-config, and with the package as a folder of their own."""
    prefix, build = f"{to}/installed", f"{to}/build"
    steps = (["cmake", "-S", package, "-B", build, f"-DCMAKE_INSTALL_PREFIX={prefix}", "-DCMAKE_INSTALL_LIBDIR=lib", "-DIPXR_EXAMPLES=ON"],
             ["cmake", "--build", build], ["cmake", "--install", build])
    tell("cpp: CMake builds and installs it", all(packages.runs(*it) for it in steps))
    packages.tells_story("cpp: by CMake", f"{build}/story")
    shutil.rmtree(build)
    for name, text in (("found", CONSUMER.format(release=packages.release())), ("within", WITHIN.format(folder=package))):
        project = f"{to}/{name}"
        os.makedirs(project)
        put(f"{project}/CMakeLists.txt", text)
        shutil.copy(f"{package}/examples/story.cpp", project)
        made = f"{project}/build"
        steps = (["cmake", "-S", project, "-B", made, f"-DCMAKE_PREFIX_PATH={prefix}"], ["cmake", "--build", made])
        if all(packages.runs(*it) for it in steps):
            packages.tells_story(f"cpp: by CMake, {name}", f"{made}/story")
        else:
            tell(f"cpp: a program by CMake, {name}", False)
    by_pkg_config(f"{prefix}", f"{to}/found/story.cpp", to)


def by_pkg_config(prefix, source, to):
    if not has("pkg-config"):
        left_out("cpp: pkg-config", "pkg-config")
        return
    made = f"{to}/by-pkg-config"
    os.rename(prefix, f"{prefix}-elsewhere")
    words = f'c++ -std=c++11 "{source}" $(pkg-config --cflags --libs ipxr) -o "{made}"'
    if packages.runs("sh", "-c", words, env={**os.environ, "PKG_CONFIG_PATH": f"{prefix}-elsewhere/lib/pkgconfig"}):
        packages.tells_story("cpp: by pkg-config, from a folder that was moved", made)
    else:
        tell("cpp: a program by pkg-config", False)


def test(folder):
    """Packs the package, and tries what comes out of the archive."""
    package_layers.see("cpp", upper(), LEFT_OUT)
    if not has(CC):
        left_out("cpp: the package", CC)
        return
    with packages.elsewhere() as to:
        package = packed(folder, to)
        tell("cpp: it is packed, and has all that it needs",
             all(os.path.isfile(f"{package}/{it}") for it in ("src/libipxr.c", "LICENCE", *(f"include/{one}" for one in HEADERS))))
        compilers(package, to)
        if has("cmake"):
            by_cmake(package, to)
        else:
            left_out("cpp: CMake", "cmake")
