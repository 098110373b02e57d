"""A switch of VDE: Debian's own where it is there, and one that the test plays, which may be late, silent or spiteful."""
import array
import contextlib
import errno
import os
import shutil
import signal
import socket
import stat
import struct
import subprocess
import tempfile
import threading
import time

from calls import call_of
from changed import Changed
from frames import KINDS, Neighbour, Station
from lab import AGAIN, Client, Gateway, comes_next, fresh, played_anew, reaches, reaches_again, says, tunnels, until
from links import STATION, both_ways
from passing import halted, passes, unsent, within
from pc import Pc, all_come_back, missing
from segments import NUMBER, Cable, calls, hears
from systems import SYSTEM, fault_words
from troubles import ends_well, troubled
from trying import Counts, begin, left_out, tried
from vde import PLACE, SWITCH, Played, Plug, Real, down, files_of, folder_of, line, on_switch, place_of, up

LONGEST = 90  # bytes of a path that a line may name
LATE = 5  # seconds that a switch has to answer
MANY = 300  # frames, more than wait at a socket
PASSED = 5  # descriptors in a message
UNREAD = 50  # messages with one
# A shell that tells its number in a folder, and waits there until somebody has taken a name: then the program behind is in its place.
WAITS = 'echo $$ >"$0/number"; while [ ! -e "$0/taken" ]; do sleep 0.01; done; exec "$@"'


# ---- A switch that the test plays ----


def frames_pass():
    """PCs at a switch reach a DOSBox on another network by each kind of frame, and it them; the switch is told who asks."""
    for kind in KINDS:
        with folder_of() as folder:
            switch = Played(folder)
            with Gateway(on_switch(folder, kind)) as gate:
                port = switch.gives()
                up(gate)
                assert port.who == b"ipxr-gateway" and os.path.dirname(port.file) == folder
                both_ways(gate, Station(port, kind, 0x20, STATION, gate.nodes[0x20]), Client(gate.ports[0x10]))


def by_its_own_path():
    """A path may be that of the control socket itself, and one that isn't whole begins where the gateway does."""
    with folder_of() as folder:
        switch = Played(folder, control="a.ctl")
        control = os.path.join(folder, "a.ctl")
        for path in control, os.path.relpath(control):
            with Gateway(on_switch(path)) as gate:
                port = switch.gives()
                up(gate)
                assert os.path.isabs(port.file) and os.path.realpath(port.file).startswith(f"{control}.ipxr-"), port.file
                station, far = Station(port, "raw", 0x20, STATION, gate.nodes[0x20]), Client(gate.ports[0x10])
                assert reaches(station, far) and reaches(far, station)
            port.close()
            assert os.listdir(folder) == ["a.ctl"]


def longest_paths():
    """Paths of as many bytes as a line takes work, with whatever number the gateway's process has."""
    with folder_of() as folder:
        path = os.path.join(folder, "p" * (LONGEST - len(folder) - 1))
        os.mkdir(path)
        assert len(path) == LONGEST
        switch = Played(folder, path)
        switch.listener.close()
        switch = Played(path)
        with Gateway(on_switch(path)) as gate:
            port = switch.gives()
            up(gate)
            longest = len("ipxr-7fffffff-ff")
            assert len(os.path.basename(port.file)) <= longest and LONGEST + 1 + longest < 108
            assert reaches_again(Station(port, "raw", 0x20, STATION, gate.nodes[0x20]), Client(gate.ports[0x10]))


def comes_and_goes():
    """A switch that isn't there, or ends, is called again each second; that it is missing is told, and why; the file goes with each port."""
    with folder_of() as folder, Gateway(on_switch(folder)) as gate:
        far = Client(gate.ports[0x10])
        down(gate, folder, f"can't call the switch: {fault_words(errno.ENOENT)}")
        for _ in range(3):
            switch = Played(folder)
            port = switch.gives()
            up(gate)
            station = Station(port, "raw", 0x20, STATION, gate.nodes[0x20])
            assert reaches_again(station, far) and reaches(far, station)
            assert files_of(folder) == [os.path.basename(port.file)]
            switch.close()
            port.close()
            down(gate, folder, "the switch has ended")
            until(lambda: not files_of(folder), "no file")
        os.remove(os.path.join(folder, "ctl"))
        assert gate.end()
        assert not os.listdir(folder)


@played_anew
def silent():
    """One who takes the call and says nothing is told after some seconds, and called again; nobody waits for him."""
    with folder_of() as folder:
        switch = Played(folder)
        with Gateway(on_switch(folder) + "network 30 1 1424 dosbox 127.0.0.1:0\n") as gate:
            first, began = switch.called(), time.monotonic()
            near, far = Client(gate.ports[0x10]), Client(gate.ports[0x30])
            assert reaches(near, far) and reaches(far, near) and time.monotonic() - began < LATE
            down(gate, folder, "the switch doesn't answer")
            assert first.call.recv(1) == b"", "it stays connected"
            second = switch.called()
            second.call.sendall(place_of(second.path)[:7])
            second.call.sendall(place_of(second.path)[7:])
            up(gate)
            assert reaches_again(Station(second, "raw", 0x20, STATION, gate.nodes[0x20]), near)


def no_switch():
    """What is no answer of a switch's is told, and so is one that gives no port; then it is called again."""
    with folder_of() as folder:
        switch = Played(folder)
        with Gateway(on_switch(folder)) as gate:
            switch.called().call.close()
            down(gate, folder, "the switch gives no port")
            switch.called().call.sendall(b"\xff" * PLACE.size)
            down(gate, folder, f"what it says isn't what a switch says: {fault_words(errno.EPROTO)}")
            switch.called().call.sendall(place_of(os.path.join(folder, "nobody")))
            down(gate, folder, f"what it says isn't what a switch says: {fault_words(errno.ENOENT)}")
            port = switch.gives()
            up(gate)
            port.call.sendall(b"what no switch says")
            assert reaches_again(Station(port, "raw", 0x20, STATION, gate.nodes[0x20]), Client(gate.ports[0x10]))
            assert "is down" not in "".join(gate.lines[gate.looked :])


def strangers_at_the_file():
    """What others send to the gateway's socket isn't heard, before the switch answers or later; nor do descriptors matter that they pass."""
    with folder_of() as folder:
        switch = Played(folder)
        with Gateway(on_switch(folder)) as gate, socket.socket(socket.AF_UNIX, socket.SOCK_DGRAM) as stranger:
            port, far = switch.called(), Client(gate.ports[0x10])
            forged = Station(Writer(stranger, port.file), "raw", 0x20, STATION, gate.nodes[0x20])
            forged.say(far.at(), b"from a stranger")
            with tempfile.TemporaryFile() as it:
                stranger.sendmsg([b"?"], [(socket.SOL_SOCKET, socket.SCM_RIGHTS, array.array("i", [it.fileno()]))], 0, port.file)
            port.answer()
            up(gate)
            with contextlib.suppress(OSError):  # (the system itself may refuse it)
                forged.say(far.at(), b"from a stranger")
            assert comes_next(Station(port, "raw", 0x20, STATION, gate.nodes[0x20]), far)
            assert gate.counted(0x20, "in") == 1 and not any("what a switch says" in it for it in gate.lines)


class Writer:
    """Datagrams to a file, from a socket without a name."""

    def __init__(self, by, file):
        self.by, self.file = by, file

    def send(self, bytes_):
        self.by.sendto(bytes_, self.file)


def descriptors_of(gate):
    return len(os.listdir(f"/proc/{gate.run.pid}/fd"))


def passed():
    """Descriptors that a switch passes, with an answer, with frames or with what isn't read any more, are closed, though closing them waits; it
    is taken for no switch, and all others go on."""
    with folder_of() as folder:
        switch = Played(folder)
        with Gateway(on_switch(folder) + "network 30 1 1424 dosbox 127.0.0.1:0\n") as gate:
            port = switch.gives()
            up(gate)
            near, far = Client(gate.ports[0x10]), Client(gate.ports[0x30])
            assert reaches(near, far)
            before, ends = descriptors_of(gate), []
            for by in ("frames", "answer"):
                pairs = [unsent() for _ in range(PASSED)]
                ends += [other for _, other in pairs]
                with halted(gate):
                    passes(port.socket if by == "frames" else port.call, b"?" * 60, [one for one, _ in pairs])
                down(gate, folder, f"what it says isn't what a switch says: {fault_words(errno.EPROTO)}")
                assert reaches(near, far) and reaches(far, near)
                port = switch.gives()
                up(gate)
            assert reaches_again(Station(port, "raw", 0x20, STATION, gate.nodes[0x20]), near)
            until(lambda: descriptors_of(gate) == before, "as many descriptors as before")
            for it in ends:
                it.close()


def passed_within():
    """Where closing what one switch passed takes an hour, another switch that starts again is called all the same."""
    with folder_of() as folder, folder_of() as other:
        switch, well = Played(folder), Played(other)
        with Gateway(on_switch(folder) + f"network 30 1 1490 {line(other)}\n") as gate:
            spiteful, port = switch.gives(), well.gives()
            up(gate)
            up(gate, 0x30)
            inner, kept = within()
            with halted(gate):
                passes(spiteful.call, b"?", [inner])
            down(gate, folder, f"what it says isn't what a switch says: {fault_words(errno.EPROTO)}")
            port.close()
            gate.told("network 00000030 is down")
            port = well.gives()
            up(gate, 0x30)
            assert reaches_again(Station(port, "raw", 0x30, STATION, gate.nodes[0x30]), Client(gate.ports[0x10]))
            for it in kept:
                it.close()


def many_messages_within():
    """However many messages a switch leaves unread whose descriptors take an hour to close, one thread closes them all."""
    with folder_of() as folder:
        switch = Played(folder)
        with Gateway(on_switch(folder)) as gate:
            port = switch.gives()
            up(gate)
            before, kept = threads_of(gate), []
            with halted(gate):
                for _ in range(UNREAD):
                    inner, keeps = within()
                    passes(port.call, b"?", [inner])
                    kept += keeps
            down(gate, folder, f"what it says isn't what a switch says: {fault_words(errno.EPROTO)}")
            assert threads_of(gate) <= before + 3, "one for the message that was read, and one for each of the two sockets"
            for it in kept:
                it.close()


def threads_of(gate):
    return len(os.listdir(f"/proc/{gate.run.pid}/task"))


def passed_within_by_a_stranger():
    """What somebody else passes before the switch answers, and that takes an hour to close, isn't held against the switch: it is called again."""
    with folder_of() as folder, socket.socket(socket.AF_UNIX, socket.SOCK_DGRAM) as stranger:
        switch = Played(folder)
        with Gateway(on_switch(folder)) as gate:
            port = switch.called()
            inner, kept = within()
            with halted(gate):
                stranger.connect(port.file)
                passes(stranger, b"?", [inner])
            port.answer()
            up(gate)
            port.close()
            gate.told("network 00000020 is down")
            port = switch.gives()
            up(gate)
            assert reaches_again(Station(port, "raw", 0x20, STATION, gate.nodes[0x20]), Client(gate.ports[0x10]))
            for it in kept:
                it.close()


def too_much():
    """What a switch that reads nothing has no room for is counted, and holds up nobody."""
    with folder_of() as folder:
        switch = Played(folder)
        text = f"{tunnels(1)}rate none\nnetwork 20 1 1490 {line(folder)}\nrate none\nnetwork 30 1 1424 dosbox 127.0.0.1:0\nrate none\n"
        with Gateway(text) as gate:
            port = switch.gives()
            up(gate)
            near, far = Client(gate.ports[0x10]), Client(gate.ports[0x30])
            station = Station(port, "raw", 0x20, STATION, gate.nodes[0x20])
            for _ in range(MANY):
                near.say(station.at(), b"for the switch")
                assert reaches(near, far)
                if gate.counted(0x20, "not sent"):
                    break
            assert gate.counted(0x20, "not sent") > 0
            while station.hear(lambda it: it[30:] == b"for the switch", AGAIN) is not None:
                pass
            assert reaches_again(near, station)


def a_reload_keeps_it():
    """A reload that changes other networks leaves the port as it is; one that names another switch gives it back."""
    with folder_of() as folder, folder_of() as other:
        switch, later = Played(folder), Played(other)
        with Changed(on_switch(folder)) as gate:
            port = switch.gives()
            up(gate)
            gate.reload(on_switch(folder) + "network 30 1 1424 dosbox 127.0.0.1:0\n")
            far = Client(gate.ports[0x10])
            assert reaches_again(Station(port, "raw", 0x20, STATION, gate.nodes[0x20]), far)
            gate.report()
            gate.looked = len(gate.lines)
            gate.reload(on_switch(other))
            assert port.call.recv(1) == b"" and not files_of(folder)
            port = later.gives()
            gate.told("network 00000020 is up")
            assert reaches_again(Station(port, "raw", 0x20, STATION, gate.nodes[0x20]), far)


def left_behind():
    """The file that a killed gateway left behind is in nobody's way: the next one gets a port, and has a file of its own."""
    with folder_of() as folder:
        switch = Played(folder)
        with Gateway(on_switch(folder)) as gate:
            first = switch.gives()
            up(gate)
            assert os.path.basename(first.file) == f"ipxr-{gate.run.pid:x}-0"
            gate.run.kill()
            gate.run.communicate()
            assert os.path.exists(first.file)
            first.close()
        with Gateway(on_switch(folder)) as gate:
            port = switch.gives()
            up(gate)
            assert reaches_again(Station(port, "raw", 0x20, STATION, gate.nodes[0x20]), Client(gate.ports[0x10]))


def content_of(name):
    """What a file has, or nothing while it isn't there."""
    with contextlib.suppress(FileNotFoundError), open(name, encoding="ascii") as it:
        return it.read()
    return ""


def take_name(folder, other):
    """Gives a socket the name that the gateway's would have, which waits for that."""
    number = int(until(lambda: (lambda text: text.endswith("\n") and text)(content_of(os.path.join(folder, "number"))), "a number"))
    other.bind(os.path.join(folder, f"ipxr-{number:x}-0"))
    with open(os.path.join(folder, "taken"), "wb"):
        pass


def another_has_the_name():
    """A file of the same name that another program has, as in another container, isn't touched: the gateway's gets the next name."""
    with folder_of() as folder, socket.socket(socket.AF_UNIX, socket.SOCK_DGRAM) as other:
        switch = Played(folder)
        taker = threading.Thread(target=take_name, args=(folder, other))
        taker.start()
        # (a shell has the number that the gateway has once it begins in its place)
        with Gateway(on_switch(folder), before=["sh", "-c", WAITS, folder]) as gate:
            taker.join()
            port = switch.gives()
            up(gate)
            taken = os.path.join(folder, f"ipxr-{gate.run.pid:x}-0")
            assert port.file == f"{taken[:-1]}1", port.file
            gate.end()
            assert os.path.exists(taken) and not os.path.exists(port.file)


def rights():
    """The gateway's file is for who may call the switch: its owner, and others as far as the control socket is theirs."""
    for mode in 0o600, 0o660, 0o666:
        with folder_of() as folder:
            switch = Played(folder)
            os.chmod(os.path.join(folder, "ctl"), mode)
            with Gateway(on_switch(folder)):
                port = switch.gives()
                assert stat.S_IMODE(os.stat(port.file).st_mode) == mode


# ---- Calls that fail ----

# By which a switch is called and heard: each with a fault, and how many times it is let fail.
OF_SWITCHES = [
    ("socket", errno.EMFILE, 5),
    ("bind", errno.EACCES, 2),
    ("fcntl", errno.EINVAL, 12),
    ("connect", errno.ECONNREFUSED, 3),
    ("send", errno.EPIPE, 3),
    ("recvmsg", errno.ECONNRESET, 6),
    ("recvmsg", errno.EINTR, 6),
    ("close", errno.EIO, 4),
    ("malloc", errno.ENOMEM, 3),
]


class Giver(threading.Thread):
    """A switch that gives a port to each who calls, as long as it lasts; the last one that it gave goes on."""

    def __init__(self, folder):
        super().__init__(daemon=True)
        self.switch, self.ports = Played(folder), []
        self.start()

    def run(self):
        with contextlib.suppress(OSError, ValueError):
            while True:
                with contextlib.suppress(AssertionError, struct.error, ConnectionError, FileNotFoundError):
                    self.ports.append(self.switch.gives())

    def answers(self, gate, client):
        """Whether a PC at the port that was given last is heard, and hears."""
        if not self.ports:
            return False
        with contextlib.suppress(OSError):
            station = Station(self.ports[-1], "raw", 0x20, STATION, gate.nodes[0x20])
            return says(client, station, fresh(), AGAIN) and says(station, client, fresh(), AGAIN)
        return False


def each_fails():
    """Each call of the system that a switch needs fails once: the gateway calls it again, and goes on."""
    for name, fault, times in OF_SWITCHES:
        for which in range(1, times + 1):
            with folder_of() as folder:
                giver, gate = Giver(folder), troubled(on_switch(folder), call_of(name), fault, which)
                if gate is not None:
                    client = Client(gate.ports[0x10], registers=False)
                    until(lambda: client.is_told(AGAIN), "an answer")
                    until(lambda: giver.answers(gate, client), f"a PC is heard, {name} {which}")
                    ends_well(gate, f"{name} {which}")
                    assert not files_of(folder), f"{name} {which}: {files_of(folder)}"
                giver.switch.close()


# ---- Debian's switch ----


def by_a_real_one():
    """Debian's switch carries frames of each kind between PCs, a DOSBox on another network and the gateway."""
    for kind in KINDS:
        with folder_of() as folder, Real(os.path.join(folder, "s")) as switch:
            with Gateway(on_switch(switch.path, kind)) as gate:
                up(gate)
                one = Neighbour(Plug(switch.path, "one"), kind, 0x20, STATION, gate.nodes[0x20])
                other = Neighbour(Plug(switch.path, "other"), kind, 0x20, STATION[:5] + b"\xb2", gate.nodes[0x20])
                far = Client(gate.ports[0x10])
                both_ways(gate, one, far)
                both_ways(gate, other, far)


def a_real_one_ends():
    """Where Debian's switch ends or is killed, that is told, and the next one is called."""
    with folder_of() as folder:
        path = os.path.join(folder, "s")
        with Gateway(on_switch(path)) as gate:
            far = Client(gate.ports[0x10])
            for order in signal.SIGTERM, signal.SIGKILL, None:
                with Real(path) as switch:
                    up(gate)
                    plug = Plug(path)
                    assert reaches_again(Station(plug, "raw", 0x20, STATION, gate.nodes[0x20]), far)
                    os.remove(plug.file)
                    if order is not None:
                        switch.end(order)
                        down(gate, path, "the switch has ended")
                        shutil.rmtree(path, ignore_errors=True)


def on_one_network():
    """PCs at Debian's switch and players of DOSBox are on one network: each hears what another one says to all."""
    with folder_of() as folder, Real(os.path.join(folder, "s")) as switch:
        with Cable(["dosbox 127.0.0.1:0", line(switch.path, "auto")]) as gate:
            up(gate, NUMBER)
            anna, ben = gate.client(), gate.client()
            one = Neighbour(Plug(switch.path, "one"), "raw", NUMBER, STATION, gate.nodes[NUMBER])
            other = Neighbour(Plug(switch.path, "other"), "raw", NUMBER, STATION[:5] + b"\xb2", gate.nodes[NUMBER])
            for who in (anna, one, ben, other):
                data = calls(who)
                assert all(hears(it, data) for it in (anna, ben, one, other) if it is not who)


def a_real_pc():
    """A PC in QEMU at Debian's switch answers a DOSBox' client."""
    with folder_of() as folder, Real(os.path.join(folder, "s")) as switch:
        with Gateway(tunnels(1) + f"network 30 1 1500 {line(switch.path)}\n") as gate:
            up(gate, 0x30)
            client = Client(gate.ports[0x10])
            with Pc(folder, f"vde,sock={switch.path}") as pc:
                all_come_back(client, pc, "a switch")


def has_vde_in_qemu():
    """Whether this QEMU speaks with switches."""
    for program in filter(shutil.which, ("qemu-system-i386", "qemu-system-x86_64")):
        said = subprocess.run([program, "-netdev", "help"], stdout=subprocess.PIPE, stderr=subprocess.DEVNULL, check=False).stdout
        return b"vde" in said.split()
    return False


def main():
    if not SYSTEM.has_cards:
        left_out("switches of VDE", f"the gateway for {SYSTEM.name} has none")
        return Counts()
    counts = tried(frames_pass, by_its_own_path, longest_paths, comes_and_goes, silent, no_switch, strangers_at_the_file, passed, passed_within,
                   many_messages_within, passed_within_by_a_stranger, too_much,
                   a_reload_keeps_it, left_behind, another_has_the_name, rights,
                   each_fails)
    if not shutil.which(SWITCH):
        left_out("Debian's switch of VDE", f"no {SWITCH}")
        return counts
    counts += tried(by_a_real_one, a_real_one_ends, on_one_network)
    if missing() or not has_vde_in_qemu():
        left_out("a PC in QEMU at a switch", f"no {missing()[0]}" if missing() else "this QEMU has no vde")
    else:
        counts.run(a_real_pc)
    return counts


if __name__ == "__main__":
    begin(main)
