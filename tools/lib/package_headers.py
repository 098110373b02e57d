"""What packages for other languages are made of: the structs and calls of the headers (library_header.py), and their numbers, by groups.

A group is a list of numbers that belong together, such as all fates of a packet. Each number has one group, or stands alone, or is left out
by a package that says why: a number that a header gains, and that nobody puts anywhere, is a fault (package_checks.py).
"""
import re

import library_header
from c_library import text_of
from systems import HEADERS
from wasm_format import Unknown

DEFINE = re.compile(r"(?m)^#define (IPXR_\w+)(\()?(?:[ \t]+(\S.*?))?[ \t]*$")
NAME = re.compile(r"\bIPXR_\w+")
# What an expression has: numbers, what is done with them, and no names.
PLAIN = re.compile(r"[\d\sxA-Fa-f()+*/<>-]+")
# What are no numbers: guards, what precedes a call, handles to begin with, and a macro with an argument.
NO_NUMBERS = ("IPXR_CALL", "IPXR_NONE", "IPXR_TUNNEL_NONE", "IPXR_KEYED_NONE", "IPXR_SEGMENT_NONE", "IPXR_DROPPED")
# The groups: by the first and the last of their numbers, or by what their names begin with.
BETWEEN = {
    "Outcome": ("IPXR_STARTED", "IPXR_ALREADY_UP"),
    "Drop": ("IPXR_NOT_RUNNING", "IPXR_DOWN_PORT"),
    "Frame": ("IPXR_FRAME_ETHERNET2", "IPXR_FRAME_SNAP"),
    "Rip": ("IPXR_RIP_REQUEST", "IPXR_RIP_RESPONSE"),
    "Said": ("IPXR_SAID_NOTHING", "IPXR_SPEAKS"),
    "Verdict": ("IPXR_PASSES", "IPXR_TOO_MUCH_FOR_STRANGERS"),
}
BEGUN = {
    "LinkKind": "IPXR_LINK_",
    "Carrier": "IPXR_CARRIER_",
    "TunnelFate": "IPXR_TUNNEL_",
    "LimitsLink": "IPXR_LIMITS_",
    "PacketKind": "IPXR_KIND_",
    "LineRank": "IPXR_LINE_",
    "Way": "IPXR_WAY_",
    "RuleOf": "IPXR_RULE_",
    "Names": "IPXR_NAMES_",
    "Probe": "IPXR_PROBE_",
    "Next": "IPXR_NEXT_",
    "Fate": "IPXR_FATE_",
    "Lost": "IPXR_LOST_",
    "Setting": "IPXR_SETTING_",
    "Over": "IPXR_OVER_",
    "Cards": "IPXR_CARDS_",
    "Expected": "IPXR_EXPECTED_",
    "PeersVerdict": "IPXR_PEERS_",
}
# What the names of a group's numbers begin with, where it isn't as above; of others nothing but IPXR_.
HEADS = {"Frame": "IPXR_FRAME_", "Rip": "IPXR_RIP_", "Said": "IPXR_SAID_", **BEGUN}
# Numbers that stand alone.
ALONE = (
    "IPXR_MOST_PORTS", "IPXR_MOST_ROUTES", "IPXR_MOST_SERVICES", "IPXR_LIFETIME", "IPXR_NO_LIMIT", "IPXR_NO_FRAME", "IPXR_FRAME_ANY",
    "IPXR_SHORTEST_FRAME", "IPXR_LONGEST_FRAME", "IPXR_RIP_SOCKET", "IPXR_SAP_SOCKET", "IPXR_PACKET_ROUTES", "IPXR_PACKET_SERVICES",
    "IPXR_MOST_CLIENTS", "IPXR_MOST_LINKS", "IPXR_MOST_STATIONS", "IPXR_MOST_PLANNED", "IPXR_NO_ONE", "IPXR_SPEAKERS", "IPXR_MOST_TIME",
    "IPXR_MOST_RULES", "IPXR_MOST_PEERS", "IPXR_MOST_STEPS", "IPXR_NO_REASON", "IPXR_DROPS", "IPXR_ALL_NETWORKS", "IPXR_ALL_LINKS", "IPXR_ALL_SOCKETS",
    "IPXR_ALL_RANGES", "IPXR_ALL_ORIGINS", "IPXR_ALL_PEERS", "IPXR_ALL_RULES", "IPXR_ALL_STATIC_ROUTES", "IPXR_ALL_STATIC_SERVICES", "IPXR_STACK", "IPXR_PLAN_STACK",
)
# Numbers that packages don't name, and why.
UNNAMED = {
    "IPXR_BROADCAST_BYTE": "packages have the node of six such bytes",
    "IPXR_MOST_WORD": "the room for words is a package's own",
    "IPXR_LAST_DROP": "it is another name of a drop",
    "IPXR_FRAME_KINDS": "it is how many the group of frames has",
    "IPXR_LONGEST_ADDRESS": "the room for words is a package's own",
    "IPXR_LONGEST_LINK": "the room for words is a package's own",
    "IPXR_RELEASE": "a package has its release from its own description",
    "IPXR_VERSION": "a package compares it with what the library says, and shows that",
}


def without_comments(text):
    return re.sub(r"(?s)/\*.*?\*/", "", text)


def value_of(name, defined):
    """The number of a macro, or its text."""
    text = defined[name]
    if text.startswith('"'):
        return text.strip('"')
    text = NAME.sub(lambda it: f"({value_of(it[0], defined)})", text.replace("(uint64_t)", "")).replace("/", "//")
    if not PLAIN.fullmatch(text):
        raise Unknown(f"{name} has a form that isn't known: {text}")
    return eval(text)  # noqa: S307  (numbers and signs alone)


class Read(library_header.Headers):
    """What the headers of a folder say: structs, calls, and numbers in their order."""

    def __init__(self, folder):
        super().__init__(folder)
        text = "\n".join(without_comments(text_of(f"{folder}/{it}")) for it in HEADERS)
        defined = {name: value for name, argument, value in DEFINE.findall(text) if value and not argument and name not in NO_NUMBERS}
        self.numbers = {name: value_of(name, defined) for name in defined}

    def between(self, first, last):
        names = [*self.numbers]
        return names[names.index(first): names.index(last) + 1]

    def group_of(self, name):
        """The group of a number, by its name, or nothing."""
        if name in ALONE or name in UNNAMED:
            return None
        if isinstance(self.numbers[name], int) and self.numbers[name] < 0:
            return "Fault"
        return next((it for it, ends in BETWEEN.items() if name in self.between(*ends)),
                    next((it for it, begin in BEGUN.items() if name.startswith(begin)), None))

    def groups(self):
        """For each group the names that its numbers have there, and the numbers."""
        made = {it: {} for it in (*BETWEEN, "Fault", *BEGUN)}
        for name, number in self.numbers.items():
            if group := self.group_of(name):
                made[group][name.removeprefix(HEADS.get(group, "IPXR_")).removeprefix("IPXR_")] = number
        return made

    def alone(self):
        return {name.removeprefix("IPXR_"): self.numbers[name] for name in ALONE}

    def homeless(self):
        """Numbers that are in no group, don't stand alone, and aren't left out."""
        return [it for it in self.numbers if not self.group_of(it) and it not in ALONE and it not in UNNAMED]
