"""A router for IPX, DOSBox's tunnel, and whatever a gateway needs, as values.

    import ipxr

    with ipxr.Router([ipxr.Port("10", "000000000001"), ipxr.Port("20", "000000000002", longest=1500)]) as router:
        for port, node, data in router.start().sent:
            transmit(port, node, data)  # yours

The calls are those of the headers of the library for C. `raw` has all of them as they are there."""
from . import numbers, raw
from .cable import Asked, Asks, Kinds, Loop, Pace, Range, Twins, choose_node, is_first_of_range, probe, ranges_have
from .edge import Edge, rule
from .fair import Fair, Meter
from .fates import Counts, Course
from .keys import Keys
from .limits import AddressUse, ClientUse, HouseholdLimits, Limits, Queues, Reader, StrangersLimits, kind_of, told_by_links
from .line import Line, LineAddress, Moment
from .numbers import *  # noqa: F403
from .packets import (ALL_ROUTES, Read, RouteEntry, ServiceEntry, read_frame, read_packet, read_rip, read_sap, write_frame, write_packet,
                      write_query, write_rip, write_sap)
from .plan import LinkFate, Origin, Plan, plan, plan_link
from .router import Happened, Packet, Port, Route, Router, Service
from .segment import HeardBySegment, Link, Segment, Station
from .settings import (Configuration, ConfigurationLine, setting_host, setting_link, settings_address_words, settings_hexadecimal,
                       settings_line, settings_link_words, settings_node, settings_range, settings_socket, settings_word)
from .text import BROADCAST, Address, AddressLike, Node, NodeLike, Place, PlaceLike, address, network_text, socket_text
from .tunnel import Client, Heard, KeyedSecond, KeyedTunnel, Member, Own, Second, Tunnel, extend
from .values import IpxrError, version, words

__all__ = [
    "raw", "Address", "address", "AddressLike", "AddressUse", "ALL_ROUTES", "Asked", "Asks", "BROADCAST", "choose_node", "Client",
    "ClientUse", "Configuration", "ConfigurationLine", "Counts", "Course", "Edge", "extend", "Fair", "Happened", "Heard", "HeardBySegment",
    "HouseholdLimits", "IpxrError", "is_first_of_range", "KeyedSecond", "KeyedTunnel", "Keys", "kind_of", "Kinds", "Limits", "Line",
    "LineAddress", "Link", "LinkFate", "Loop", "Member", "Meter", "Moment", "network_text", "Node", "NodeLike", "Origin", "Own", "Pace",
    "Packet", "Place", "PlaceLike", "Plan", "plan", "plan_link", "Port", "probe", "Queues", "Range", "ranges_have", "Read", "read_frame",
    "read_packet", "read_rip", "read_sap", "Reader", "Route", "RouteEntry", "Router", "rule", "Second", "Segment", "Service",
    "ServiceEntry", "setting_host", "setting_link", "settings_address_words", "settings_hexadecimal", "settings_line",
    "settings_link_words", "settings_node", "settings_range", "settings_socket", "settings_word", "socket_text", "Station",
    "StrangersLimits", "told_by_links", "Tunnel", "Twins", "version", "words", "write_frame", "write_packet", "write_query", "write_rip",
    "write_sap",
]
__all__ += numbers.__all__
