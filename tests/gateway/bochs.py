"""A real Bochs: a PC whose boot sector drives an NE2000 and sends packets back, its frames in datagrams or by a TAP in a bridge."""
import glob
import os
import shutil
import subprocess
import tempfile

from cards import has_taps
from lab import Client, Gateway, free_ports, is_free, tunnels, until
from pc import MAC, all_come_back, boot_sector
from spaces import ip
from systems import SYSTEM
from trying import Counts, begin, can, left_out, tried, tried_inside

FLOPPY = 1474560  # bytes
ROMS = "/usr/share/bochs"
BIOS, VGA_BIOS = f"{ROMS}/BIOS-bochs-latest", f"{ROMS}/VGABIOS-lgpl-latest"
TERMINAL = "/usr/lib/*/bochs/plugins/libbx_term_gui.so"
# The packages of Debian that have these.
PACKAGES = {BIOS: "bochsbios", VGA_BIOS: "vgabios", TERMINAL: "bochs-term"}
CONFIGURATION = f"""config_interface: textconfig
display_library: term
romimage: file={BIOS}
vgaromimage: file={VGA_BIOS}
megs: 16
pci: enabled=0
boot: floppy
floppya: 1_44=boot, status=inserted
log: log
"""
CARD = "ne2k: type=isa, ioaddr=0x300, irq=9, mac={mac}, ethmod={module}, ethdev={device}\n"
BRIDGE, OF_GATEWAY, OF_BOCHS = "brb", "ipxb", "bochs0"


class Bochs:
    """One that runs until it is left. `script` gives it a terminal, on which nobody looks."""

    def __init__(self, folder, module, device):
        os.truncate(boot_sector(folder), FLOPPY)
        # (Debian's waits for a word of its debugger's before it begins)
        for name, text in ("bochsrc", CONFIGURATION + CARD.format(mac=MAC, module=module, device=device)), ("orders", "c\n"):
            with open(os.path.join(folder, name), "w", encoding="ascii") as it:
                it.write(text)
        how = {"stdin": subprocess.DEVNULL, "stdout": subprocess.DEVNULL, "stderr": subprocess.PIPE}
        words = ["script", "-qec", "bochs -q -f bochsrc -rc orders", os.devnull]
        self.run = subprocess.Popen(words, cwd=folder, env={**os.environ, "TERM": "vt100"}, **how)

    def __enter__(self):
        return self

    def __exit__(self, *_):
        self.run.terminate()
        self.run.communicate()


def datagrams():
    """A PC in Bochs answers a DOSBox' client, its frames in datagrams (ethmod=socket), which go to the port behind the one where it hears."""
    card = next(it for it in free_ports(20) if is_free(it + 1))
    link = f"qemu-udp {card + 1} {card}"
    with tempfile.TemporaryDirectory() as folder, Gateway(tunnels(1) + f"network 30 1 1500 {link} raw\n") as gate:
        client = Client(gate.ports[0x10])
        with Bochs(folder, "socket", card) as pc:
            all_come_back(client, pc, link)


def by_a_bridge():
    """A PC in Bochs answers by a TAP of its own (ethmod=tuntap), which a bridge joins to the gateway's."""
    ip("link", "add", BRIDGE, "type", "bridge")
    ip("link", "set", BRIDGE, "up")
    link = f"tap {OF_GATEWAY}"
    with tempfile.TemporaryDirectory() as folder, Gateway(tunnels(1) + f"network 30 1 1500 {link} raw\n") as gate:
        ip("link", "set", OF_GATEWAY, "master", BRIDGE)
        client = Client(gate.ports[0x10])
        with Bochs(folder, "tuntap", f"/dev/net/tun:{OF_BOCHS}") as pc:
            until(lambda: can(lambda: ip("link", "set", OF_BOCHS, "up", "master", BRIDGE)), "Bochs' TAP")
            all_come_back(client, pc, link)
    ip("link", "del", BRIDGE)


def inside():
    """In the network of its own."""
    ip("link", "set", "lo", "up")
    if has_taps():
        return tried(by_a_bridge)
    left_out("a PC in Bochs behind a bridge", "no TAPs")
    return Counts()


def lacks():
    """What isn't there of what the tests want; nothing where all is."""
    for program in "bochs", "script", "nasm":
        if not shutil.which(program):
            return f"no {program}"
    for file, package in PACKAGES.items():
        if not any(map(os.path.isfile, glob.glob(file))):
            return f"no {package}"
    said = subprocess.run(["bochs", "--help"], stdin=subprocess.DEVNULL, capture_output=True, text=True, check=False)
    is_debians = "-rc filename" in said.stdout + said.stderr and os.path.isdir(ROMS)
    return "" if is_debians else "another one than Debian's, which has a debugger"


def main():
    why = lacks()
    if why:
        left_out("a PC in Bochs", why)
        return Counts()
    counts = tried(datagrams)
    return counts + tried_inside(__file__, "a PC in Bochs behind a bridge") if SYSTEM.has_cards else counts


if __name__ == "__main__":
    begin(main, inside)
