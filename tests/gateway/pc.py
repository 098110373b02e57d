"""A real QEMU: a PC whose boot sector drives an NE2000 and sends packets back."""
import os
import re
import shutil
import subprocess
import tempfile
import time

from lab import AGAIN, GAME, Client, Gateway, address, comes_next, free_ports, packet, socket_of, tunnels
from status import Watched
from systems import TOP
from trying import Counts, begin, has_linux, left_out, tried

SOURCE = os.path.join(TOP, "tests", "gateway", "pc", "boot.asm")
PROGRAMS = ("qemu-system-i386", "qemu-system-x86_64")
NODE = bytes.fromhex("525400123456")
MAC = ":".join(f"{it:02x}" for it in NODE)
SIZES = (0, 1, 17, 546, 1394)
MOST = 300  # seconds until a PC is taken for lost


def boot_sector(folder, *words):
    """The file with the program that the PC starts, in a folder."""
    boot = os.path.join(folder, "boot")
    subprocess.run(["nasm", "-f", "bin", *words, "-o", boot, SOURCE], check=True)
    return boot


class Pc:
    """A PC that runs until it is left."""

    def __init__(self, folder, netdev, *built, node=NODE):
        mac = ":".join(f"{it:02x}" for it in node)
        program = next(it for it in PROGRAMS if shutil.which(it))
        drive = f"if=floppy,format=raw,file={boot_sector(folder, *built)}"
        words = ["-nodefaults", "-display", "none", "-vga", "none", "-accel", "tcg", "-m", "16", "-drive", drive]
        words += ["-netdev", netdev.replace(",", ",id=n,", 1)]
        words += ["-device", f"ne2k_isa,netdev=n,iobase=0x300,irq=9,mac={mac}"]
        how = {"stdin": subprocess.DEVNULL, "stdout": subprocess.DEVNULL, "stderr": subprocess.PIPE}
        self.run = subprocess.Popen([program, *words], **how)

    def __enter__(self):
        return self

    def __exit__(self, *_):
        self.run.kill()
        self.complaint = self.run.communicate()[1].decode()


def is_answered(client, pc, data, crossed=1):
    """Whether the PC sends a packet back, though not at once: it has to boot. What it sent back before may still come."""
    end = time.monotonic() + MOST
    while time.monotonic() < end:
        assert pc.run.poll() is None, "the emulator has ended: " + pc.run.stderr.read().decode()
        client.say(address(0x30, NODE, GAME), data)
        heard = client.hear(lambda it: it[30:] == data and socket_of(it) == GAME, AGAIN)
        if heard is not None:
            return heard == packet(client.at(), address(0x30, NODE, GAME), data, control=crossed)
    return False


def all_come_back(client, pc, link):
    """Packets of several lengths come back."""
    for size in SIZES:
        assert is_answered(client, pc, bytes(k % 251 for k in range(size))), f"{size} bytes by {link}"


def answers(link, netdev):
    """A PC by one kind of link: packets of several lengths come back."""
    with tempfile.TemporaryDirectory() as folder, Gateway(tunnels(1) + f"network 30 1 1500 {link} raw\n") as gate:
        client = Client(gate.ports[0x10])
        with Pc(folder, netdev) as pc:
            all_come_back(client, pc, link)
        assert gate.counted(0x30, "no IPX") == 0


def inet(kind, port):
    return f"{kind}.type=inet,{kind}.host=127.0.0.1,{kind}.port={port}"


def datagrams():
    """A PC in QEMU answers a DOSBox' client, its frames in datagrams (-netdev dgram, and the older -netdev socket)."""
    gate, card = free_ports(2)
    answers(f"qemu-udp {gate} {card}", f"dgram,{inet('local', card)},{inet('remote', gate)}")
    answers(f"qemu-udp {gate} {card}", f"socket,udp=127.0.0.1:{gate},localaddr=127.0.0.1:{card}")


def connections():
    """The same by connections, which QEMU begins or the gateway (-netdev stream, and the older -netdev socket)."""
    (port,) = free_ports(1)
    answers(f"qemu-tcp listen {port}", f"stream,{inet('addr', port)}")
    answers(f"qemu-tcp listen {port}", f"socket,connect=127.0.0.1:{port}")
    answers(f"qemu-tcp connect {port}", f"stream,server=on,{inet('addr', port)}")
    answers(f"qemu-tcp connect {port}", f"socket,listen=127.0.0.1:{port}")


def of_any_kind():
    """A PC in QEMU on a link of any kind is found, and spoken to in the kind in which it answered: each packet comes back once then."""
    gate, card = free_ports(2)
    text = tunnels(1) + f"network 30 1 1492 qemu-udp {gate} {card} auto\n"
    netdev = f"dgram,{inet('local', card)},{inet('remote', gate)}"
    with tempfile.TemporaryDirectory() as folder, Gateway(text) as it, Pc(folder, netdev) as pc:
        client = Client(it.ports[0x10])
        # (its program sends any frame back whose packet stands where a raw one's does, so it answers in two kinds as long as it gets them)
        assert is_answered(client, pc, b"in which kind")
        assert re.search(rf"{NODE.hex().upper()} at qemu-udp \S+ \S+ auto, (raw|ethernet2)\n", it.report())
        said = [b"%d in the same" % k for k in range(3)]
        for data in said:
            client.say(address(0x30, NODE, GAME), data)
        assert [client.hear(lambda it: it[30:] != b"in which kind")[30:] for _ in said] == said, "something came back twice"


def on_one_network():
    """A PC in QEMU is on one network with two clients of DOSBox': it answers whoever speaks to it, and the other one hears nothing."""
    gate, card = free_ports(2)
    text = f"network 30 1 1424\nlink dosbox 127.0.0.1:0\nlink qemu-udp {gate} {card} raw\n"
    netdev = f"dgram,{inet('local', card)},{inet('remote', gate)}"
    with tempfile.TemporaryDirectory() as folder, Gateway(text) as it, Pc(folder, netdev) as pc:
        port = int(it.lines[0].rpartition(", node")[0].rpartition(":")[2])
        anna, ben = (Client(port, gateway=it.nodes[0x30]) for _ in range(2))
        assert is_answered(anna, pc, b"for the PC", crossed=0)
        assert comes_next(anna, ben), "what the PC answered came to somebody else, too"
        assert is_answered(ben, pc, b"for it, too", crossed=0)
        assert f"{NODE.hex().upper()} at qemu-udp" in it.report()


def learns():
    """On one network over several links a PC in QEMU asks for its network, and learns the number from the router, which has a network of its own."""
    gate, card = free_ports(2)
    text = f"network 30 1 1424\nlink dosbox 127.0.0.1:0\nlink qemu-udp {gate} {card} raw\ninternal A1\n"
    netdev = f"dgram,{inet('local', card)},{inet('remote', gate)}"
    with tempfile.TemporaryDirectory() as folder, Gateway(text) as it, Pc(folder, netdev, "-dLEARNS") as pc:
        port = int(it.lines[0].rpartition(", node")[0].rpartition(":")[2])
        client, end = Client(port, gateway=it.nodes[0x30]), time.monotonic() + MOST
        heard = None
        while heard is None and time.monotonic() < end:
            assert pc.run.poll() is None, "the emulator has ended"
            client.say(address(0, NODE, GAME), b"who are you")
            # (what waited while it booted is answered before it has learned the number)
            heard = client.hear(lambda it: it[30:] == b"who are you" and it[18:28] == address(0x30, NODE, 0)[:10], AGAIN)
        assert heard is not None and socket_of(heard) == GAME, heard


def pinged():
    """A PC in QEMU, whose program sends back what it gets, answers the gateway's pings at any socket."""
    gate, card = free_ports(2)
    link = f"network 30 1 1500 qemu-udp {gate} {card} raw\n"
    netdev = f"dgram,{inet('local', card)},{inet('remote', gate)}"
    with tempfile.TemporaryDirectory() as folder, Watched(tunnels(1) + link) as it, Pc(folder, netdev) as pc:
        assert is_answered(Client(it.ports[0x10]), pc, b"booted")
        station = f"00000030.{NODE.hex().upper()}"
        for words, port in ((station, "0456"), (f"{station}.4003", "4003")):
            out = it.asked("ping", words)
            assert out.startswith(f"asks {station} at socket {port}\n") and out.endswith("\n4 asked, 4 answered\n"), out


def missing():
    """What a PC in QEMU lacks here."""
    return ([] if any(map(shutil.which, PROGRAMS)) else [PROGRAMS[0]]) + ([] if shutil.which("nasm") else ["nasm"])


def main():
    if lacking := missing():
        left_out("a PC in QEMU", f"no {lacking[0]}")
        return Counts()
    counts = tried(datagrams, connections, of_any_kind, on_one_network, learns)
    if has_linux("pings that a PC in QEMU answers", "the status socket is Linux' own"):
        counts.run(pinged)
    return counts


if __name__ == "__main__":
    begin(main)
