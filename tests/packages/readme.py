"""Runs the lines of the package's README that show a router and a server, with what they call "yours": readme.py README."""
import sys
import time

import ipxr

NOBODY = "0.000000000000.2"
sent, answered = [], []


class Udp:
    """A socket by which somebody registers."""

    def recvfrom(self, _):
        return ipxr.write_packet(NOBODY, NOBODY, 0, b""), ("10.0.0.1", 2130)

    def sendto(self, data, place):
        answered.append(place)


def shown(text, section):
    """The lines of a section that are code."""
    part = text.split(f"\n## {section}\n")[1].split("\n## ")[0]
    return "\n".join(it[4:] for it in part.split("\n") if it.startswith("    "))


with open(sys.argv[1], encoding="utf-8") as it:
    page = it.read()
names = {"transmit": lambda *it: sent.append(it), "udp": Udp(), "time": time, "LONGEST": 1424,
         "data": ipxr.write_query("10.0200000000AA.4003", "10.FFFFFFFFFFFF.452")}
for each in ("A router", "A server for DOSBox"):
    exec(shown(page, each), names)
assert sent and answered == [("10.0.0.1", 2130)], (sent, answered)
