"""What a gateway lets pass where many send more than somebody can read. A call that decides returns one of Verdict."""
from __future__ import annotations

from ctypes import byref

from . import raw
from ._library import calls
from .fair import Fair, Meter, fair_of, refused
from .numbers import NO_LIMIT, LimitsLink, PacketKind, Verdict
from .text import whole
from .values import Bytes, Clock

BYTE, SHORT, LONG = 0xFF, 0xFFFF, 0xFFFFFFFF


def kind_of(packet: Bytes) -> PacketKind:
    """What a packet is, as far as limits differ."""
    return PacketKind(calls.ipxr_kind_of(bytes(packet), len(packet)))


def byte(value: int, what: str) -> int:
    return whole(value, BYTE, what)


def long(value: int, what: str) -> int:
    return whole(value, LONG, what)


class ClientUse:
    """What a client uses of its limits."""

    def __init__(self) -> None:
        self.state, self._clock = raw.ipxr_client_use(), Clock()

    def look(self, now: int) -> None:
        """The time passes that your clock shows beyond what it showed at the last look."""
        self._clock.look(self.state, now, calls.ipxr_client_look)


class AddressUse:
    """What all clients of an address use."""

    def __init__(self) -> None:
        self.state, self._clock = raw.ipxr_address_use(), Clock()

    def look(self, now: int) -> None:
        """The time passes that your clock shows beyond what it showed at the last look."""
        self._clock.look(self.state, now, calls.ipxr_address_look)


class Limits:
    """The limits of a network. `rate` is how many packets a second a client receives, `share` what one says who says little. `state` has
    the numbers, which you may change."""

    def __init__(self, link: LimitsLink, rate: int, share: int, routes: int = NO_LIMIT, services: int = NO_LIMIT) -> None:
        self.state = raw.ipxr_limits()
        tables = whole(routes, SHORT, "the routes"), whole(services, SHORT, "the services")
        numbers = byte(link, "the link"), long(rate, "the rate"), long(share, "the share")
        refused(calls.ipxr_limits_make(byref(self.state), *numbers, *tables), "network's limits")

    def says(self, kind: PacketKind, client: ClientUse, all_pings: Meter) -> Verdict:
        """Whether a packet of that kind, which a client says, goes on."""
        return Verdict(calls.ipxr_limits_says(byref(self.state), byte(kind, "the kind"), byref(client.state), byref(all_pings.state)))

    def frames_say(self, kind: PacketKind, all_pings: Meter) -> Verdict:
        """The same of a packet that came in a frame."""
        return Verdict(calls.ipxr_limits_frames_say(byref(self.state), byte(kind, "the kind"), byref(all_pings.state)))

    def answers(self, clients: int, client: ClientUse, address: AddressUse) -> Verdict:
        """Whether the gateway answers a client that registers or pings, whose address has so many clients."""
        of = long(clients, "the clients"), byref(client.state), byref(address.state)
        return Verdict(calls.ipxr_limits_answers(byref(self.state), *of))

    def router_answers(self, clients: int, client: ClientUse, address: AddressUse) -> Verdict:
        """Whether a client gets a packet by which the router answers it."""
        of = long(clients, "the clients"), byref(client.state), byref(address.state)
        return Verdict(calls.ipxr_limits_router_answers(byref(self.state), *of))

    def hands(self, clients: int, kind: PacketKind, client: ClientUse, address: AddressUse, handed: Meter, advertised: Meter) -> Verdict:
        """Whether the router hears a packet of that kind of a client."""
        used = byref(client.state), byref(address.state), byref(handed.state), byref(advertised.state)
        return Verdict(calls.ipxr_limits_hands(byref(self.state), long(clients, "the clients"), byte(kind, "the kind"), *used))

    def frames_hand(self, link: int, kind: PacketKind, asked: Meter, advertised: Meter, links: Fair) -> Verdict:
        """Whether the router hears a packet of that kind of a link with frames, whose queue among all such links has that number."""
        used = byref(asked.state), byref(advertised.state), byref(links.state)
        return Verdict(calls.ipxr_limits_frames_hand(byref(self.state), byte(link, "the link"), byte(kind, "the kind"), *used))

    def receives(self, client: Reader, queue: int, size: int) -> Verdict:
        """Whether a client whose address has no limits receives a packet of so many bytes, of somebody who has that queue there."""
        of = byref(client.state), byte(queue, "the queue"), long(size, "the bytes")
        return Verdict(calls.ipxr_limits_receives(byref(self.state), *of))

    def hears_router(self, client: Reader, queue: int, size: int) -> None:
        """The same client receives a packet of the router: it isn't dropped."""
        calls.ipxr_limits_hears_router(byref(self.state), byref(client.state), byte(queue, "the queue"), long(size, "the bytes"))

    def carries(self, link: Reader, queue: int, size: int, frames: int) -> Verdict:
        """Whether a link with frames gets a packet in so many frames."""
        of = byte(queue, "the queue"), long(size, "the bytes"), long(frames, "the frames")
        return Verdict(calls.ipxr_limits_carries(byref(self.state), byref(link.state), *of))


class Reader:
    """What waits for somebody who reads packets of a network with these limits."""

    def __init__(self, limits: Limits) -> None:
        self.state, self._clock = raw.ipxr_reader(), Clock()
        received = limits.state.received
        refused(calls.ipxr_fair_make(byref(self.state.packets), byref(received.packets)), "reader")
        refused(calls.ipxr_fair_make(byref(self.state.pieces), byref(received.pieces)), "reader")

    def look(self, now: int) -> None:
        """The time passes that your clock shows beyond what it showed at the last look."""
        self._clock.look(self.state, now, calls.ipxr_reader_look)


def told_by_links() -> Fair:
    """What all links with frames tell the router, where none has told anything yet."""
    links = Fair()
    calls.ipxr_told_make(byref(links.state))
    return links


class HouseholdLimits:
    """What all clients of an address receive, so many packets a second."""

    def __init__(self, rate: int) -> None:
        self.state = raw.ipxr_household_limits()
        refused(calls.ipxr_household_make(byref(self.state), long(rate, "the rate")), "address' limits")

    def receiver(self) -> Fair:
        """The receiver of an address with these limits."""
        return fair_of(self.state.received)

    def receives(self, limits: Limits, client: Reader, address: Fair, queue: int, size: int) -> Verdict:
        """Whether a client receives a packet of another address: both the client and its address must have room."""
        of = byref(client.state), byref(address.state), byte(queue, "the queue"), long(size, "the bytes")
        return Verdict(calls.ipxr_household_receives(byref(self.state), byref(limits.state), *of))

    def receives_of_own(self, limits: Limits, client: Reader, among: Meter, queue: int, size: int) -> Verdict:
        """The same of a packet of its own address."""
        of = byref(client.state), byref(among.state), byte(queue, "the queue"), long(size, "the bytes")
        return Verdict(calls.ipxr_household_receives_of_own(byref(self.state), byref(limits.state), *of))

    def receives_of_router(self, limits: Limits, client: Reader, address: Fair, queue: int, size: int) -> Verdict:
        """The same of a packet of the router."""
        of = byref(client.state), byref(address.state), byte(queue, "the queue"), long(size, "the bytes")
        return Verdict(calls.ipxr_household_receives_of_router(byref(self.state), byref(limits.state), *of))


class StrangersLimits:
    """What goes to places without a client, so many datagrams a second."""

    def __init__(self, rate: int) -> None:
        self.state = raw.ipxr_strangers_limits()
        refused(calls.ipxr_strangers_make(byref(self.state), long(rate, "the rate")), "strangers' limits")

    def send(self, count: int, address: Meter, all_places: Meter) -> Verdict:
        """Whether so many datagrams go to a place without a client: all of them or none."""
        of = long(count, "the count"), byref(address.state), byref(all_places.state)
        return Verdict(calls.ipxr_strangers_send(byref(self.state), *of))


class Queues:
    """Who has which queue."""

    def __init__(self) -> None:
        self.state = raw.ipxr_queues()

    def take(self, first: int, last: int) -> int:
        """Gives somebody who begins to speak a queue, of those from the first to the last."""
        return calls.ipxr_queues_take(byref(self.state), byte(first, "the first"), byte(last, "the last"))

    def unshare(self, queue: int, first: int, last: int) -> int:
        """Somebody who shares his queue gets one that nobody has, if there is one. Returns the one that he has then."""
        ends = byte(first, "the first"), byte(last, "the last")
        return calls.ipxr_queues_unshare(byref(self.state), byte(queue, "the queue"), *ends)

    def give_back(self, queue: int) -> None:
        """Somebody who has that queue speaks no more."""
        calls.ipxr_queues_give_back(byref(self.state), byte(queue, "the queue"))
