"""Players as the gateway sees them: a DOSBox registers once, answers pings, and its program says something to all, or listens.

A player takes its node from the first answer, and says a word to itself at once, by which it is in. Who says nothing is let in seven seconds
after the registration: only Listener does so.

What a player says to all has a number. So what is lost is counted, and no time of the machine is in it: when everything is said, each
speaker says a last word until everybody has heard it, and LIMIT_OF_LAST ends that only where it fails.
"""
import select
import socket
import struct
import sys
import time

from lab import EVERYONE, GAME, KEYED, LIMIT, NOBODY, ROOM, TUNNEL, address, packet, socket_of

NETWORK = 0x10
LIMIT_OF_LAST = 4  # seconds for a last word that is lost
BETWEEN_LAST = 0.05  # seconds until a last word is said again
FAST = 1 / 35  # seconds between packets of a game
HELLO, NUMBERED, LAST, GUEST = b"hello", b"number", b"last", b"guest"
MOST_LOST = 0.02


class Player:
    """One DOSBox: `every` is how many seconds pass between two words of its program; None says nothing."""

    to = EVERYONE
    says_first = True

    def __init__(self, host, gateway, every=None, size=100, port=0):
        self.udp = socket.socket(socket.AF_INET, socket.SOCK_DGRAM)
        self.udp.setsockopt(socket.SOL_SOCKET, socket.SO_RCVBUF, ROOM)
        self.udp.bind((host, port))
        self.udp.connect(gateway)
        self.place = socket.inet_aton(host) + struct.pack(">H", self.udp.getsockname()[1])
        self.node = self.place  # (until it is told another)
        self.comes_in = False
        self.every, self.size = every, size
        self.network = 0
        self.pings = self.said = self.twice = 0
        self.beside = 0  # packets to sockets that no player has
        self.others = []  # words that no player of a party says
        self.heard = {}  # by the node of who said it: the numbers
        self.met, self.ended, self.guests = set(), set(), set()  # of whom it has heard a hello, a last word, a guest's
        self.due = 0

    def at(self, port=GAME):
        return address(self.network, self.node, port)

    def send(self, bytes_):
        """Sends a datagram; whether it came is seen elsewhere."""
        try:
            self.udp.send(bytes_)
        except OSError:
            pass

    def register(self):
        self.comes_in = self.says_first
        self.send(packet(address(0, NOBODY, TUNNEL), address(0, NOBODY, TUNNEL), kind=0))

    def learn(self, answer):
        """Takes network and node from an answer; the first word behind it is for itself."""
        self.network, self.node = int.from_bytes(answer[6:10], "big") or self.network, answer[10:16]
        if self.comes_in:
            self.comes_in = False
            self.send(packet(address(0, self.node, GAME), self.at(), struct.pack(">6sI", HELLO, 0)))

    def say(self, what, number=0):
        """Says something to all, or to whom it speaks."""
        data = struct.pack(">6sI", what, number).ljust(self.size - 30, b".")
        self.send(packet(address(0, self.to, GAME), self.at(), data))

    def speak(self, now):
        """Says the next of its numbers where it is time."""
        if self.every is None or now < self.due:
            return
        self.due = max(self.due + self.every, now - self.every)
        self.say(NUMBERED, self.said)
        self.said += 1

    def receive(self, most=sys.maxsize):
        """Hears what has come, at most so many, and answers pings."""
        for _ in range(most):
            try:
                bytes_ = self.udp.recv(65536, socket.MSG_DONTWAIT)
            except BlockingIOError:
                return
            except OSError:
                continue  # (a datagram of its own wasn't taken)
            if len(bytes_) >= 30:
                self.hear(bytes_)

    def hear(self, bytes_):
        to, source = bytes_[10:16], bytes_[22:28]
        if socket_of(bytes_) == TUNNEL and to == EVERYONE:
            self.pings += 1
            self.send(packet(address(0, source, TUNNEL), address(0, self.node, TUNNEL), kind=0))
        elif socket_of(bytes_) == TUNNEL and to[0] == KEYED:
            self.learn(bytes_)
        elif socket_of(bytes_) == GAME:
            self.hear_word(source, bytes_[30:])
        else:
            self.beside += 1

    def hear_word(self, source, data):
        what, number = data[:6].rstrip(b"\0"), int.from_bytes(data[6:10], "big")
        if what == HELLO:
            self.met.add(source)
        elif what == LAST:
            self.ended.add(source)
        elif what == GUEST:
            self.guests.add(source)
        elif what == NUMBERED:
            numbers = self.heard.setdefault(source, set())
            self.twice += number in numbers
            numbers.add(number)
        else:
            self.others.append(data)

    def close(self):
        self.udp.close()


class Listener(Player):
    """A player who never says anything."""

    says_first = False


class Slow(Player):
    """A player that reads as a DOSBox does: a packet a millisecond, of those that the system keeps for it."""

    KIND, KEPT, A_SECOND = "as slow as a DOSBox", 106496, 1000

    def __init__(self, host, gateway, every=None):
        super().__init__(host, gateway, every)
        self.udp.setsockopt(socket.SOL_SOCKET, socket.SO_RCVBUF, self.KEPT)
        self.looked = time.monotonic()

    def receive(self, most=1):
        """Hears as many as it would have read since it looked last."""
        now = time.monotonic()
        due = int((now - self.looked) * self.A_SECOND)
        if due > 0:
            self.looked = now
            super().receive(due)


class Party:
    """Players of one network. Listeners say nothing, slow ones something each second, fast ones 35 packets a second."""

    KINDS = {"listeners": None, "each second": 1.0, "35 a second": FAST}

    def __init__(self, hosts, gateway, size=100, numbers=(2, 2, 3)):
        hosts = iter(hosts)
        self.players = [(kind, Player(next(hosts), gateway, every, size=size))
                        for (kind, every), number in zip(self.KINDS.items(), numbers) for _ in range(number)]
        self.all = [it for _, it in self.players]
        self.speakers = [it for it in self.all if it.every is not None]
        self.poll = select.epoll()
        self.by_number = {it.udp.fileno(): it for it in self.all}
        for number in self.by_number:
            self.poll.register(number, select.EPOLLIN)

    def hear(self, patience=0.0):
        """Hears what has come."""
        for number, _ in self.poll.poll(patience):
            self.by_number[number].receive()

    def until(self, holds, patience, every=None):
        """Hears until something holds; meanwhile each speaker says a word again and again. Returns whether it holds."""
        end, due = time.monotonic() + patience, 0
        while not holds():
            now = time.monotonic()
            if now > end:
                return False
            if every is not None and now >= due:
                due = now + BETWEEN_LAST
                for speaker in self.speakers:
                    speaker.say(every)
            self.hear(0.005)
        return True

    def put_in(self, kind, player):
        """One more player, of a kind of his own."""
        self.players.append((kind, player))
        self.all.append(player)
        self.by_number[player.udp.fileno()] = player
        self.poll.register(player.udp.fileno(), select.EPOLLIN)

    def have_all(self, seen):
        """Whether everybody has heard everybody else who speaks."""
        nodes = {it.node for it in self.speakers}
        return all(nodes - {it.node} <= seen(it) for it in self.all)

    def enter(self):
        """Each registers once; then they wait until everybody hears everybody."""
        for player in self.all:
            player.register()
        assert self.until(lambda: all(it.network for it in self.all), LIMIT), "a registration isn't answered"
        assert self.until(lambda: self.have_all(lambda it: it.met), LIMIT, HELLO), "not everybody hears everybody"

    def play(self, lasts, apart=0.003):
        """They play while something lasts; each begins so many seconds behind the one before."""
        began = time.monotonic()
        for k, speaker in enumerate(self.speakers):
            speaker.due = began + apart * k
        while lasts():
            now = time.monotonic()
            for speaker in self.speakers:
                speaker.speak(now)
            self.hear(0.002)

    def begin_again(self, size):
        """From now on packets of a size are counted."""
        for player in self.all:
            player.size, player.said, player.heard = size, 0, {}

    def settle(self):
        """Waits until each has heard the last word of each. Returns whether it came."""
        for player in self.all:
            player.ended = set()
        return self.until(lambda: self.have_all(lambda it: it.ended), LIMIT_OF_LAST, LAST)

    def lost(self, player):
        """The part of what the others said that didn't come to a player."""
        said = sum(it.said for it in self.speakers if it is not player)
        heard = sum(len(player.heard.get(it.node, ())) for it in self.speakers if it is not player)
        return 1 - heard / said if said else 0.0

    def not_heard(self, speaker):
        """The part of what a player said that didn't come to the others."""
        heard = sum(len(it.heard.get(speaker.node, ())) for it in self.all if it is not speaker)
        said = speaker.said * (len(self.all) - 1)
        return 1 - heard / said if said else 0.0

    def missing(self):
        """How many packets of what the others said didn't come to all of them together."""
        return sum(it.said - len(player.heard.get(it.node, ())) for player in self.all for it in self.speakers if it is not player)

    def losses(self):
        """For each kind of player the largest part that one of them lost."""
        found = dict.fromkeys(self.KINDS, 0.0)
        for kind, player in self.players:
            found[kind] = max(found.get(kind, 0.0), self.lost(player))
        return found

    def figures(self):
        return ", ".join(f"{kind} {100 * lost:.1f} %" for kind, lost in self.losses().items())

    def fault(self, came):
        """What is wrong with what they heard, or nothing: everything comes, once, and nobody else's words."""
        worst = max([*self.losses().values(), *map(self.not_heard, self.speakers)])
        if worst > MOST_LOST:
            return f"lost: {self.figures()}"
        if not came:
            return f"a last word never comes; lost: {self.figures()}"
        if any(it.twice for it in self.all):
            return "a packet comes twice"
        return "a packet comes that nobody said" if any(it.others for it in self.all) else ""

    def close(self):
        self.poll.close()
        for player in self.all:
            player.close()
