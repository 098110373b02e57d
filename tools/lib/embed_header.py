"""Whether the headers of the library for C say what the sources do, at the top of the repository: a program made of them, each call that is
exported, headers that are altered, and each standard of C and C++."""
import os
import re
import shutil
import subprocess

from c_library import CC, FLAGS, calls_of_header, put, text_of
from systems import HEADERS
from telling import has, left_out, prints, quietly, succeeds, tell

STRICT = ["-Wall", "-Wextra", "-Wpedantic", "-Wconversion", "-Werror"]
ROUTER, TUNNEL, KEYED, SEGMENT, PLAN, SETTINGS, FAIR, LIMITS, CABLE, CONFIGURATION, FATES, EDGE, PEERS = HEADERS
# Numbers with words: all of the router's, and those of the others that a call answers. The kinds of frames, what a datagram said, what a
# link is, what limits say of a packet, what a probe does, what is next with a packet, and what a rule names have no words.
ANSWERS = {
    ROUTER: re.compile(r"(?m)^(?!.*_FRAME)#define (IPXR_[A-Z_]+) +\(?-?[0-9]+\)? +/\*"),
    TUNNEL: re.compile(r"(?m)^#define (IPXR_[A-Z_]+) +\(-[0-9]+\) +/\*"),
    SEGMENT: re.compile(r"(?m)^#define (IPXR_[A-Z_]+) +\(-[0-9]+\) +/\*"),
    EDGE: re.compile(r"(?m)^#define (IPXR_[A-Z_]+) +\(-[0-9]+\) +/\*"),
}
EXPORTED = re.compile(r"(?m)^\S+ T (ipxr_\S*)$")
# What is altered in a header, each of which the sources must refuse.
ALTERED = (
    (ROUTER, "ipxr_port_up(ipxr *router, uint8_t port)", "ipxr_port_up(ipxr *router)"),
    (ROUTER, "uint16_t cost;", "uint32_t cost;"),
    (ROUTER, "uint16_t hops;", "uint16_t ticks;"),
    (ROUTER, "size_t ipxr_sent", "int32_t ipxr_sent"),
    (ROUTER, "_ROUTES 2048", "_ROUTES 2047"),
    (TUNNEL, "uint8_t current[6]", "uint8_t previous[6]"),
    (TUNNEL, "size_t ipxr_tunnel_owns", "int32_t ipxr_tunnel_owns"),
    (TUNNEL, "_CLIENTS 4096", "_CLIENTS 4095"),
    (TUNNEL, "uint8_t bytes[30]", "uint8_t bytes[32]"),
    (KEYED, "uint8_t former[6]; ", "uint8_t before[6]; "),
    (KEYED, "size_t ipxr_keyed_pings", "int32_t ipxr_keyed_pings"),
    (KEYED, "uint16_t remembered; ", "uint32_t remembered; "),
    (SEGMENT, "uint8_t links; ", "uint16_t links;"),
    (SEGMENT, "_STATIONS 8192", "_STATIONS 8191"),
    (SEGMENT, "ipxr_segment_link(ipxr_segment *segment, ", "ipxr_segment_link("),
    (PLAN, "size_t becomes;", "uint32_t becomes;"),
    (PLAN, "ipxr_plan_fate *fates, size_t fates_room", "ipxr_plan_fate *fates"),
    (SETTINGS, "uint16_t six[8];", "uint16_t six[7];"),
    (SETTINGS, "size_t number, size_t *start", "size_t *start, size_t number"),
    (SETTINGS, "uint16_t most_clients, ", "size_t most_clients, "),
    (FAIR, "uint8_t speaker, uint64_t weight", "uint8_t speaker, uint32_t weight"),
    (FAIR, "uint64_t ends[256]", "uint64_t ends[255]"),
    (FAIR, "uint64_t waits;     /*", "uint64_t total;     /*"),
    (LIMITS, "uint16_t routes, uint16_t services", "uint16_t routes, uint32_t services"),
    (LIMITS, "uint8_t queue, size_t bytes, uint32_t frames", "uint8_t queue, size_t bytes"),
    (LIMITS, "ipxr_limit pings;          /*", "ipxr_meter pings;          /*"),
    (LIMITS, "ipxr_fair pieces;", "ipxr_meter pieces;"),
    (LIMITS, "uint32_t users[256]", "uint32_t users[255]"),
    (CABLE, "ipxr_kind_bucket buckets[64]", "ipxr_kind_bucket buckets[63]"),
    (CABLE, "uint16_t left;", "uint8_t left;"),
    (CABLE, "uint64_t sent, uint64_t now", "uint64_t sent, uint32_t now"),
    (CABLE, "const ipxr_range *ranges, size_t count", "const ipxr_range *ranges"),
    (CABLE, "uint64_t between; /*", "uint32_t between; /*"),
    (CABLE, "uint8_t moves; ", "uint16_t moves; "),
    (CABLE, "ipxr_asked *asked, ipxr_asks *all, uint64_t now, uint64_t number", "ipxr_asked *asked, ipxr_asks *all, uint64_t now"),
    (CONFIGURATION, "ipxr_link_setting list[64]", "ipxr_link_setting list[63]"),
    (CONFIGURATION, "uint8_t above; ", "uint16_t above; "),
    (CONFIGURATION, "ipxr_rule list[64]", "ipxr_rule list[63]"),
    (CONFIGURATION, "ipxr_internal *internal);", "ipxr_internal *internal, size_t line);"),
    (SETTINGS, "ipxr_rule rule; ", "uint32_t rule; "),
    (SETTINGS, "ipxr_static_route route; ", "ipxr_route_entry route; "),
    (SETTINGS, "ipxr_service_entry service;", "ipxr_route_entry service;"),
    (CONFIGURATION, "ipxr_static_route list[64]", "ipxr_static_route list[63]"),
    (CONFIGURATION, "ipxr_static_services static_services; ", "ipxr_static_routes static_services; "),
    (CONFIGURATION, "size_t line, uint8_t has_cards", "uint8_t has_cards, size_t line"),
    (EDGE, "ipxr_edge_enter(const ipxr_port *port, uint8_t *bytes, size_t length)", "ipxr_edge_enter(uint8_t *bytes, size_t length)"),
    (EDGE, "uint16_t socket;  /*", "uint32_t socket;  /*"),
    (EDGE, "_RULES 64", "_RULES 63"),
    (EDGE, "uint16_t hops, const uint8_t *bytes", "uint32_t hops, const uint8_t *bytes"),
    (FATES, "uint16_t number; /*", "uint8_t number; /*"),
    (FATES, "uint64_t lost[31];", "uint64_t lost[30];"),
    (FATES, "ipxr_counts *counts, uint8_t why", "ipxr_counts *counts, uint16_t why"),
    (PEERS, "uint64_t slots[256]", "uint64_t slots[255]"),
    (PEERS, "uint8_t echo[16];", "uint8_t other[16];"),
    (PEERS, "uint8_t place, uint8_t session[16]", "uint16_t place, uint8_t session[16]"),
)
STANDARDS = {
    "c": (("gcc", "clang"), ("c89", "c99", "c11", "c17", "c2x")),
    "c++": (("g++", "clang++"), ("c++98", "c++11", "c++14", "c++17", "c++20", "c++2b")),
}
PROGRAMS = ("every_standard", "every_standard_tunnel", "every_standard_keyed", "every_standard_segment", "every_standard_plan", "every_standard_settings",
            "every_standard_fair", "every_standard_limits", "every_standard_cable", "every_standard_configuration",
            "every_standard_fates", "every_standard_edge", "every_standard_peers")
# What those programs show, where they run.
SHOWN = ("an empty handle, a text and a router of one port", "an empty handle of a tunnel, and a tunnel",
         "a handle of a tunnel with keyed nodes, and who registers there",
         "an empty handle of a segment, and a segment", "a plan", "a line of a configuration",
         "a receiver of zeros, a receiver and a meter", "limits, and what they let pass",
         "kinds of frames, two links that are one cable, a range, a pace, a node that moves, and who is asked again",
         "a configuration of two networks", "the way of a packet, and counts", "a packet that is numbered, a rule, and a route",
         "a place that is heard once")

BEGIN = """\
#include <stdio.h>
#include "ipxr_tunnel.h"
#include "ipxr_keyed.h"
#include "ipxr_segment.h"
#include "ipxr_plan.h"
#include "ipxr_settings.h"
#include "ipxr_limits.h"
#include "ipxr_cable.h"
#include "ipxr_configuration.h"
#include "ipxr_fates.h"
#include "ipxr_edge.h"
#include "ipxr_peers.h"
typedef void call(void);
call *const calls[] = {
"""
END = """\
};
int main(void)
{
    for (size_t k = 0; k < sizeof answers / sizeof *answers; k++) {
        char text[IPXR_MOST_WORD] = "";
        ipxr_text(answers[k].number, text, sizeof text);
        printf("%s: %d %s\\n", answers[k].name, (int)answers[k].number, text);
    }
    uint8_t words[IPXR_MOST_WORD];
    for (int32_t drop = 100; drop < 65536; drop++)
        if ((drop > IPXR_LAST_DROP || drop % 100 > 9) && ipxr_word(drop, words, sizeof words) > 0)
            printf("%d: above IPXR_LAST_DROP, or its rest above 9\\n", (int)drop);
    static const uint8_t node[6], packet[30] = {0xFF, 0xFF, 0, 30};
    uint8_t frame[IPXR_LONGEST_FRAME];
    for (int kind = 0; kind < 256; kind++)
        if ((ipxr_frame_write((uint8_t)kind, node, node, packet, 30, frame, sizeof frame) > 0) != (kind > 0 && kind <= IPXR_FRAME_KINDS))
            printf("%d: a kind of frame, or none, otherwise than IPXR_FRAME_KINDS says\\n", kind);
    return 0;
}
"""


def program():
    """A program made of the headers alone: it refers to each call, and prints each answer of a call with its words."""
    calls = "".join(f"    (call *)&{it},\n" for it in calls_of_header())
    answers = [name for header, pattern in ANSWERS.items() for name in pattern.findall(text_of(f"include/{header}"))]
    named = "".join(f'    {{"{it}", {it}}},\n' for it in answers)
    return f"{BEGIN}{calls}}};\nstatic const struct {{ const char *name; int32_t number; }} answers[] = {{\n{named}{END}"


def exported_calls():
    with open("build/log", "wb") as log:
        said = subprocess.run(["nm", "-g", "--defined-only", "build/libipxr.a"], stdout=subprocess.PIPE, stderr=log, text=True, check=False)
    return sorted(EXPORTED.findall(said.stdout))


def are_exported():
    """Whether the calls of the headers are those that the archive exports; what differs is shown."""
    put("build/exported", "".join(f"{it}\n" for it in exported_calls()))
    return succeeds("diff", "-", "build/exported", input="".join(f"{it}\n" for it in calls_of_header()).encode())


def every_call():
    put("build/header.c", program())
    made = "build/header"
    tell("C: every call of the header is linked", succeeds(CC, "-std=c99", *FLAGS, f"{made}.c", "build/libipxr.a", "-o", made))
    tell("C: every number of the header has its words, and no other drop or kind of frame is there",
        prints("examples/embed/c/header.out", made))
    if has("nm"):
        tell("C: every exported call stands in the header", are_exported())
    else:
        left_out("whether every exported call stands in the header", "nm")


def refuses(header, before, after):
    """Whether a header with a change is refused beside the sources."""
    folder = "build/altered"
    os.makedirs(folder, exist_ok=True)
    for name in HEADERS:
        shutil.copyfile(f"include/{name}", f"{folder}/{name}")
    text = text_of(f"include/{header}")
    put(f"{folder}/{header}", text.replace(before, after))
    both = f"{folder}/both.c"
    with open(both, "wb") as made, open("build/log", "wb") as log:
        is_made = succeeds("dev/header", folder, stdout=made, stderr=log)
    return before in text and not (is_made and quietly(CC, "-std=c11", f"-I{folder}", "-fsyntax-only", both))


def as_the_sources():
    with open("build/both.c", "wb") as made:
        is_made = succeeds("dev/header", stdout=made)
    tell("C: header and sources have the same arguments, fields and sizes",
        is_made and succeeds(CC, "-std=c11", *FLAGS, "-Werror", "-fsyntax-only", "build/both.c"))
    tell("C: a header that differs is refused", all(refuses(*it) for it in ALTERED))


def knows(compiler, language, standard):
    return quietly(compiler, "-x", language, f"-std={standard}", "-fsyntax-only", "-", stdin=subprocess.DEVNULL)


def is_clean(compiler, language, standard):
    """Whether the headers are read without a warning; all warnings that there are are shown."""
    words = [compiler, "-x", language, f"-std={standard}", *STRICT, "-Iinclude", "-fsyntax-only"]
    return all([succeeds(*words, f"tests/embed/{it}.c") for it in PROGRAMS])


def clean(compiler, language, standards):
    """The headers by a compiler, by each standard that it knows."""
    if not has(compiler):
        left_out(f"the header by {compiler}", compiler)
        return
    known, well = "", True
    for standard in standards:
        if knows(compiler, language, standard):
            known, well = f"{known} {standard}", is_clean(compiler, language, standard) and well
        else:
            left_out(f"the header by {compiler} in {standard}", "such standard")
    tell(f"{compiler}: the header is clean in{known}", well)


def by_standards():
    for language, (compilers, standards) in STANDARDS.items():
        for compiler in compilers:
            clean(compiler, language, standards)


def of_the_first_standard():
    for name, what in zip(PROGRAMS, SHOWN):
        made = f"build/{name}"
        is_built = succeeds(CC, "-std=c89", "-O2", *STRICT, "-Iinclude", f"tests/embed/{name}.c", "build/libipxr.a", "-o", made)
        tell(f"C: {what}", is_built and prints(os.devnull, made))
