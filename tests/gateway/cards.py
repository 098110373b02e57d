"""Cards, TAPs and bridges in a network of the test's own: made and looked at; and whether they can be made here."""
import json
import os

from spaces import ip
from systems import SYSTEM
from trying import can, left_out

TUN = "/dev/net/tun"  # the device for TAPs


def pair(near, far):
    """A pair of cards, each the other's far end, and both switched on."""
    ip("link", "add", near, "type", "veth", "peer", "name", far)
    for name in (near, far):
        ip("link", "set", name, "up")


def about(name):
    """What the system knows of a card."""
    return json.loads(ip("-j", "link", "show", name))[0]


def own_address(name):
    return bytes.fromhex(about(name)["address"].replace(":", ""))


def can_add(*words):
    """Whether a card of some type can be made. It is taken away again."""
    is_made = can(lambda: ip("link", "add", "tried0", "type", *words))
    if is_made:
        ip("link", "del", "tried0")
    return is_made


def has_cards():
    """Whether the gateway has cards for links, and some can be made."""
    return SYSTEM.has_cards and can_add("veth", "peer", "name", "tried1")


def has_bridges():
    return can_add("bridge")


def has_taps():
    return SYSTEM.has_cards and can(lambda: os.close(os.open(TUN, os.O_RDWR)))


def hears_all_frames():
    """Whether a card of several links can hear the frames for other nodes; that it can't is told."""
    if SYSTEM.is_emulated:
        left_out("cards as one of several links", f"{SYSTEM.runner[0]} doesn't hand on that a card is to hear all frames")
    return not SYSTEM.is_emulated
