"""Interfaces and TAPs where the system refuses something: rights, files, calls that fail, answers. Whoever can't start says why; what runs
goes on."""
import contextlib
import errno
import os
import resource
import shutil
import subprocess
import tempfile

from cards import TUN, about, has_bridges, has_cards, has_taps, pair
from frames import Packets, Station
from lab import AGAIN, Client, Gateway, reaches_again, says, tunnels, until
from links import STATION, both_ways
from spaces import ip
from systems import SYSTEM
from troubles import Trouble, ends_well, troubled
from trying import Counts, begin, left_out, tried, tried_inside
from wires import behind_tap, let_pass

NOBODY, GROUP = 65534, 64242  # numbers of a user and of a group that own nothing


def as_nobody(*groups):
    """The words that start a program as a user who isn't root, in some groups."""
    # (setpriv itself has root's rights still when it starts one)
    groups = f"--groups={','.join(map(str, groups))}" if groups else "--clear-groups"
    return ["setpriv", f"--reuid={NOBODY}", f"--regid={NOBODY}", groups, "sh", "-c", 'exec "$0" "$@"']


def rights_of_a_group():
    """Rights that a group alone has, as GATEWAY-REFERENCE.md gives them: a user in it has cards and TAPs; others can't start the gateway."""
    pair("v0", "v1")
    text = "network 20 1 1490 interface v0 raw\n"
    # (the device for TAPs is everybody's, as systems have it; it needs the right too)
    if os.stat(TUN).st_mode & 0o006 == 0o006:
        text += "network 30 1 1490 tap ipx7 raw\n"
    else:
        left_out("TAPs by the rights of a group", "the device for them is root's alone")
    with tempfile.TemporaryDirectory() as folder:
        os.chmod(folder, 0o755)
        program = shutil.copy(SYSTEM.delivered, os.path.join(folder, "ipxr-gateway"))
        os.chmod(program, 0o750)
        os.chown(program, 0, GROUP)
        subprocess.run(["setcap", "cap_net_raw,cap_net_admin=ep", program], check=True)
        with Gateway(text, program, before=as_nobody(GROUP)) as gate:
            for network in gate.nodes:
                gate.until(f"network {network:08X} up")
        for groups, rights, why in (((), "cap_net_raw,cap_net_admin=ep", "Permission denied"), ((GROUP,), "=", "Operation not permitted")):
            subprocess.run(["setcap", rights, program], check=True)
            try:
                with Gateway(text, program, before=as_nobody(*groups)):
                    raise OSError("it starts without rights")
            except AssertionError as stop:
                assert why in str(stop), stop
    ip("link", "del", "v0")


# Each call that only cards and TAPs make, or make in another way, its fault, and how many times it is let fail.
CALLS = [
    ("open", errno.EMFILE, 1),
    ("ioctl", errno.EPERM, 18),
    ("ioctl", errno.ENODEV, 18),
    ("socket", errno.EMFILE, 8),
    ("bind", errno.ENODEV, 2),
    ("read", errno.EIO, 3),
    ("write", errno.EIO, 3),
    ("recvmmsg", errno.ENETDOWN, 3),
    ("send", errno.ENETDOWN, 3),
    ("close", errno.EIO, 3),
]


def is_well(gate, far):
    """Whether packets go there and back behind the TAP that is there now. Where the gateway couldn't switch it on, somebody else does."""
    try:
        ip("link", "set", "ipx0", "up")
        station = behind_tap(gate, "snap", 0x30)
        return says(station, far, b"there", AGAIN) and says(far, station, b"back", AGAIN)
    except (AssertionError, OSError):
        return False  # (it is just made again)


def one_fails(name, fault, which):
    """A run with a card and a TAP in which one call fails: it can't start, and says why; or it goes on."""
    gate = troubled(tunnels(1) + "network 20 1 1490 interface v0 raw\nnetwork 30 1 1490 tap ipx0 snap\n", name, fault, which)
    if gate is None:
        return
    gate.until_open(0x10)
    far = Client(gate.ports[0x10])
    gate.until("network 00000020 up")
    host = Station(Packets("v1", "raw"), "raw", 0x20, STATION, gate.nodes[0x20])
    assert reaches_again(host, far) and reaches_again(far, host), f"{name} {which}: the card"
    until(lambda: is_well(gate, far), f"{name} {which}: the TAP")
    ends_well(gate, f"{name} {which}")


# What the system says where it can't answer now, and the calls that say it.
UNANSWERED = [(name, fault) for name in ("ioctl", "socket", "open") for fault in (errno.EMFILE, errno.ENFILE, errno.ENOMEM, errno.ENOBUFS)]


@contextlib.contextmanager
def no_more_files(gate):
    """A gateway can open no file more meanwhile."""
    process, (soft, hard) = gate.run.process(), resource.getrlimit(resource.RLIMIT_NOFILE)
    there = {int(it) for it in os.listdir(f"/proc/{process}/fd")}
    resource.prlimit(process, resource.RLIMIT_NOFILE, (min(set(range(len(there) + 1)) - there), hard))
    try:
        yield
    finally:
        resource.prlimit(process, resource.RLIMIT_NOFILE, (soft, hard))


@contextlib.contextmanager
def with_a_tap_in_a_bridge(**how):
    """A gateway with a card and a TAP, which is in a bridge: both stay up, and the TAP stays there."""
    pair("v0", "v1")
    ip("link", "add", "br0", "type", "bridge")
    with Gateway(tunnels(1) + "network 20 1 1490 interface v0 raw\nnetwork 30 1 1490 tap ipx0 snap\n", **how) as gate:
        for network in (0x20, 0x30):
            gate.until(f"network {network:08X} up")
        ip("link", "set", "ipx0", "master", "br0")
        far, number, told = Client(gate.ports[0x10]), about("ipx0")["ifindex"], len(gate.lines)
        yield gate
        let_pass(gate, 2)
        changes = [it for it in gate.lines[told:] if " is down: " in it or " is up: " in it]
        assert not changes, changes
        tap = about("ipx0")
        assert tap["ifindex"] == number and tap.get("master") == "br0", tap
        both_ways(gate, Station(Packets("v1", "raw"), "raw", 0x20, STATION, gate.nodes[0x20]), far)
    for name in ("br0", "v0"):
        ip("link", "del", name)


def no_file_for_a_moment():
    """Where no file can be opened for some seconds, a card and a TAP in a bridge stay up: nobody is told anything else."""
    with with_a_tap_in_a_bridge() as gate, no_more_files(gate):
        let_pass(gate, 3)


def nobody_answers():
    """The same where the system doesn't answer what it is asked about cards, for whatever reason."""
    trouble = Trouble()
    with with_a_tap_in_a_bridge(program=SYSTEM.troubled, environment=trouble.environment()) as gate:
        for name, fault in UNANSWERED:
            with trouble.fails(name, fault):
                let_pass(gate, 2)


def nobody_answers_of_one_that_is_off():
    """Nor is a card up that was switched off, as long as the system doesn't answer."""
    trouble = Trouble()
    pair("v0", "v1")
    with Gateway("network 20 1 1490 interface v0 raw\n", SYSTEM.troubled, environment=trouble.environment()) as gate:
        gate.until("network 00000020 up")
        ip("link", "set", "v0", "down")
        gate.told("it is switched off")
        told = len(gate.lines)
        with trouble.fails("ioctl", errno.ENOMEM):
            let_pass(gate, 2)
        assert not any(" is up: " in it or " is down: " in it for it in gate.lines[told:]), gate.lines[told:]
        ip("link", "set", "v0", "up")
        gate.told("network 00000020 is up")
    ip("link", "del", "v0")


def a_node_stays():
    """A made-up node stays where a card gets another address, so that the router starts afresh, and no file can be opened meanwhile."""
    pair("v0", "v1")
    new = bytes.fromhex("02005E000078")
    with Gateway("network 20 1 1490 interface v0 raw\nnetwork 30 1 1490 qemu-tcp listen 0 raw\n") as gate:
        made_up = gate.nodes[0x30]
        with no_more_files(gate):
            ip("link", "set", "v0", "address", new.hex(":"))
            assert gate.told("network 00000020 has another node") and gate.nodes[0x20] == new
        assert f", node {made_up.hex().upper()}" in gate.report().partition("network 00000030 ")[2].split("\n")[0]
    ip("link", "del", "v0")


def each_fails():
    """Each call of the system that cards and TAPs make fails once: the gateway doesn't start and says why, or goes on."""
    pair("v0", "v1")
    for name, fault, times in CALLS:
        for which in range(1, times + 1):
            one_fails(name, fault, which)
    ip("link", "del", "v0")


def can_give_rights():
    """Whether files can be given rights here, that a program has which the system itself runs."""
    with open("/proc/self/uid_map", encoding="ascii") as it:
        is_root = it.read().split() == ["0", "0", "4294967295"]
    return is_root and not SYSTEM.is_emulated and all(map(shutil.which, ("setcap", "setpriv")))


def inside():
    """In the network of its own."""
    ip("link", "set", "lo", "up")
    if not has_cards():
        left_out("what interfaces and TAPs are refused", "no pair of interfaces can be made")
        return Counts()
    counts = tried(a_node_stays, nobody_answers_of_one_that_is_off)
    if can_give_rights():
        counts.run(rights_of_a_group)
    else:
        left_out("the rights of a group", "they want root, setcap and setpriv, and a gateway for this machine")
    if not has_taps():
        left_out("what TAPs are refused", "the device for them can't be opened")
        return counts
    counts.run(each_fails)
    if has_bridges():
        return counts + tried(no_file_for_a_moment, nobody_answers)
    left_out("a TAP in a bridge", "no bridge can be made")
    return counts


def main():
    return tried_inside(__file__, "what interfaces and TAPs are refused")


if __name__ == "__main__":
    begin(main, inside)
