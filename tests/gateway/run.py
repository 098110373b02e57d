"""The tests of the gateway on the system that GATEWAY_SYSTEM names (systems.py), all or those that are named. The last line is
'N passed, M failed'. With --known it only says which of the names are no test's: tools/gateway asks that before it builds."""
import socket
import sys

import asked
import attacks
import beside
import bochs
import complaints
import conformance
import counting
import dosbox
import edge
import events
import fair
import far
import forged
import groups
import houses
import internal
import kinds
import late
import limits
import links
import listed
import lossy
import made_up
import names
import narrow
import nodes
import npcap
import orders
import paced
import pc
import peers
import probes
import queues
import refused
import reload_memory
import reloading
import rfc1234
import segments
import siphash
import six
import slow_pc
import statics
import staying
import status
import status_page
import switches
import together
import troubles
import tunnel
import unit
import web
import wires
import words
from systems import SYSTEM, Windows
from trying import Counts, left_out

ALL = (counting, words, listed, siphash, queues, unit, orders, status, status_page, events, probes, reloading, staying, tunnel, nodes,
       links, groups, switches, peers, rfc1234, edge, statics, internal, npcap, paced, beside, six, names, segments, kinds, web, late, made_up,
       troubles, reload_memory, wires, conformance, refused, houses, attacks, forged, limits, complaints, asked, fair, slow_pc, far, narrow, lossy,
       dosbox, pc, bochs, together)
TESTS = {it.__name__: it for it in ALL}


def has_loopback():
    try:
        with socket.socket(socket.AF_INET, socket.SOCK_DGRAM) as it:
            it.bind(("127.0.0.1", 0))
    except OSError:
        return False
    return True


def chosen(names):
    """The tests that are named, or all that there are on the system."""
    if names or SYSTEM is not Windows:
        return [TESTS[it] for it in names or TESTS]
    # (TAPs are no links there, which the words tell; interfaces are tried by npcap)
    left_out("Windows: calls of the system that fail, and hours", "trouble.c stands in front of Linux' calls alone")
    return [TESTS[it] for it in TESTS if it not in ("troubles", "reload_memory", "wires", "refused")]


def main(names):
    only_asked = names[:1] == ["--known"]
    names = names[only_asked:]
    if unknown := [it for it in names if it not in TESTS]:
        print(f"there is no test {', '.join(unknown)}: expected {', '.join(TESTS)}", file=sys.stderr)
        return 2
    if only_asked:
        return 0
    if not has_loopback():
        print("left out: gateway: all tests (no sockets on the loopback address)\n0 passed, 0 failed")
        return 0
    if SYSTEM is Windows:
        left_out("TAPs, and all that is said of interfaces below but by npcap", "Windows has no TAPs, and Wine its cards by another network")
    elif not SYSTEM.has_cards:
        left_out("interfaces and TAPs, whatever is said of them below", f"the gateway for {SYSTEM.name} has none")
    counts = sum((it.main() for it in chosen(names)), Counts())
    print(counts)
    return 1 if counts.failed else 0


if __name__ == "__main__":
    sys.exit(main(sys.argv[1:]))
