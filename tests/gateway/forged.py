"""Datagrams that somebody forges for clients' nodes: floods of registrations keep nobody out who was first, and whoever knows a client's node
can't speak for it from elsewhere, nor bring it in once it has left.

It runs in networks of its own (spaces.py).
"""
import os
import socket

from attacks import QUIET, TUNNEL_LINE, Playground, during, flood, none
from lab import EVERYONE, GAME, RIP, TUNNEL, Clock, address, is_ping, packet, played_anew, registration, rip_response, until
from players import NETWORK, Listener, Player
from spaces import GATEWAY, STRANGERS, build_flood
from systems import SYSTEM
from trying import begin, figures, named, tried, tried_on_own_system

RATE, ADDRESSES = 20000, 65536  # registrations a second, and the addresses in whose names they come
LASTS = 12  # seconds of a flood
HOUR = 3600
MINUTES_OF_SILENCE = 31  # seconds, after which a client that doesn't answer is gone
WORDS = 200  # of a stranger in clients' names


@played_anew
def first_stays(below):
    """20,000 forged registrations a second, from 65,536 addresses: players lose nothing, and whoever registered before comes in: who listens by
    a ping, and who speaks by the first word."""
    with Playground(TUNNEL_LINE + below, more=2, program=SYSTEM.delivered) as it:
        listener, speaker = first = Listener(it.free[0], GATEWAY), Listener(it.free[1], GATEWAY)
        before = it.gate.counted(NETWORK, "clients")

        def hear():
            it.party.hear()
            for player in first:
                player.receive()

        def has_come(count):
            hear()
            return it.gate.counted(NETWORK, "clients") == before + count

        for player in first:
            player.register()
        until(lambda: hear() or all(player.network for player in first), "a registration is answered")
        sent = flood(it.gate, "forged", "register", RATE, count=RATE * LASTS, host=STRANGERS, hosts=ADDRESSES, first=3000)
        speaker.say(b"hello")
        until(lambda: has_come(1), "the first word lets in")
        lost = it.play(lambda: hear() or sent.lasts())
        figures(sent.end())
        until(lambda: has_come(2), "who listens is let in")
        none(lost, "" if listener.pings > 0 else "who listens isn't pinged")
        assert not any(" leaves " in line for line in it.gate.lines)
        for player in first:
            player.close()


class Elsewhere:
    """A socket of somebody who is no client, and says what he likes."""

    def __init__(self, host, port=0):
        self.udp = socket.socket(socket.AF_INET, socket.SOCK_DGRAM)
        self.udp.bind((host, port))
        self.udp.connect(GATEWAY)
        self.udp.setblocking(False)

    def say(self, node, to=EVERYONE, port=GAME, data=b"a lie that nobody hears"):
        self.udp.send(packet(address(0, to, port), address(0, node, port), data))

    def heard(self):
        """All that has come."""
        found = []
        while True:
            try:
                found.append(self.udp.recv(65536))
            except BlockingIOError:
                return found

    def close(self):
        self.udp.close()


def in_a_clients_name():
    """Somebody who has heard clients' nodes names them from another address, and from another port of the client's own: nobody hears him, he gets
    nothing, and they stay and lose nothing."""
    with Playground(more=1) as it:
        own = it.party.speakers[0]
        liars = [Elsewhere(it.free[0]), Elsewhere(own.udp.getsockname()[0])]
        lasts = during(2)

        def lies():
            for liar in liars:
                for player in it.party.all:
                    liar.say(player.node)
                    liar.say(player.node, to=bytes([6]) + os.urandom(5), port=TUNNEL, data=b"")
                    liar.say(player.node, port=TUNNEL, data=b"")
                    liar.udp.send(rip_response(NETWORK, player.node, [(0x77, 1, 2)]))
            return lasts()

        fault = it.play(lies)
        assert "routes: 0\n" in it.gate.report(), "a forged route is learned"
        assert it.gate.counted(NETWORK, "source of another") > WORDS
        heard = [liar.heard() for liar in liars]
        for liar in liars:
            liar.close()
        none(fault, "" if heard == [[], []] else f"{heard[0][:1] + heard[1][:1]} comes to who lies")


def an_hour_later():
    """A client leaves. An hour later somebody at its place says something by its node: he is pinged for each word, nobody hears him, and he
    gets nothing else; nor does he by its node from another place."""
    with Playground(more=1, clock=Clock()) as it:
        gone = Player(it.free[0], GATEWAY)
        it.party.put_in("leaves", gone)
        gone.register()
        until(lambda: it.party.hear() or any(gone.node.hex().upper() in line for line in it.gate.report() and it.gate.lines), "it comes")
        place = gone.udp.getsockname()
        it.party.all.remove(gone)
        it.party.players.remove(("leaves", gone))
        it.party.poll.unregister(gone.udp.fileno())
        gone.close()
        it.let_pass(MINUTES_OF_SILENCE)
        it.gate.report()
        assert any(gone.node.hex().upper() in line and " leaves " in line for line in it.gate.lines)
        clients = it.gate.counted(NETWORK, "clients")
        it.clock.let_pass(HOUR)
        it.gate.report()
        it.let_pass(2)
        again, other = Elsewhere(*place), Elsewhere(place[0])
        before = it.gate.counted(NETWORK, "from a stranger")
        for count in 1, 2, 3:
            again.say(gone.node)
            other.say(gone.node)
            it.gate.until_counted(NETWORK, "from a stranger", before + count)
        it.party.until(lambda: False, QUIET)
        came = again.heard()
        assert len(came) == 3 and all(map(is_ping, came)) and other.heard() == [], came
        assert it.gate.counted(NETWORK, "clients") == clients and not any(player.others for player in it.party.all)
        again.close()
        other.close()


def registered_and_silent():
    """Whoever registers once gets two answers and two pings, in that order, at their seconds, and nothing else: also where others speak to
    all meanwhile. Registered again at once, he gets one answer more for each time."""
    with Playground(clock=Clock()) as it:
        silent = Elsewhere(it.party.all[0].udp.getsockname()[0])
        silent.udp.send(registration())
        it.gate.report()
        told = []
        for second in range(12):
            for speaker in it.party.speakers:
                speaker.say(b"hello")
            it.gate.report()
            it.party.until(lambda: False, QUIET)
            told += [(second, is_ping(bytes_)) for bytes_ in silent.heard()]
            it.let_pass(1)
        assert told == [(0, False), (1, False), (7, True), (9, True)], told
        for _ in range(3):
            silent.udp.send(registration())
        it.gate.report()
        it.party.until(lambda: False, QUIET)
        assert [is_ping(bytes_) for bytes_ in silent.heard()] == [False] * 3
        silent.close()


TESTS = [named("20,000 forged registrations a second keep nobody out who was first", first_stays, ""),
         named("nor do they where strangers have no limit", first_stays, "strangers none\n"),
         in_a_clients_name, an_hour_later, registered_and_silent]


def inside():
    """In the network of its own."""
    build_flood()
    return tried(*TESTS)


def main():
    return tried_on_own_system(__file__, "what is forged for clients' nodes")


if __name__ == "__main__":
    begin(main, inside)
