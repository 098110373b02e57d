"""Who runs the gateway sees what it does, asks it for reports, and tells it to end."""
import contextlib
import os
import pty
import re
import select
import signal
import socket
import struct
import subprocess
import sys
import tempfile
import time

from lab import AGAIN, EVERYONE, GAME, LIMIT, RIP, Client, Gateway, address, played_anew, reaches, tunnels, until
from systems import SYSTEM
from trying import begin, has_linux, tried

UNREACHABLE = 16  # hops
CTRL_C = b"\x03"
UNREAD, LONG_WORD = 3000, 1000  # packets that are more than the gateway and a pipe keep, and the bytes of each
MORE_THAN_A_PIPE = 100  # of these that are more than a pipe keeps
FIRST_FILES = 3  # standard input, output and error
QUIET = 0.5  # seconds in which what was written has come
PCAP_HEADER, RECORD = 24, 16  # bytes of a capture's header, and before each frame
STALLED = 1000  # broadcasts, whose lines are more than the gateway and a pipe keep
LITTLE = 4096  # bytes that a slow reader takes at a time


def is_farewell(packet, network):
    """Whether a router says that a network can't be reached any more."""
    is_response = int.from_bytes(packet[28:30], "big") == RIP and packet[30:32] == b"\0\2"
    return is_response and (network, UNREACHABLE) in ((it[0], it[1]) for it in struct.iter_unpack(">IHH", packet[32:]))


def reports():
    """Each report that is asked for has what came before, and the gateway goes on."""
    with Gateway(tunnels(2)) as gate:
        a, b = Client(gate.ports[0x10]), Client(gate.ports[0x20])
        for k in range(1, 11):
            a.say(address(0, EVERYONE, GAME), b"all")
            assert reaches(a, b)
            assert gate.counted(0x10, "drop OtherSocket") == k


def lines_come():
    """With --log a line is shown as soon as there is something to tell, though nobody asks for a report."""
    with Gateway(tunnels(1), options=["--log"]) as gate:
        node = Client(gate.ports[0x10]).node.hex().upper()
        while f"client {node} comes to 00000010" not in gate.line():
            pass


def seconds_pass():
    """Its seconds are as long as those of this machine."""
    begun = time.monotonic()
    with Gateway(tunnels(1)) as gate:
        known = time.monotonic()

        def has_counted():
            asked = time.monotonic()
            seconds = int(re.search(r"(?m)^report after (\d+) s$", gate.report())[1])
            # (it began before it was known to have, and counts whole ones)
            assert asked - known - 2 <= seconds <= time.monotonic() - begun, seconds
            return seconds >= 2

        until(has_counted, "two seconds")


def told_to_end():
    """However it is told to end, neighbours hear that its networks can't be reached any more, and a report is the last that it says."""
    for order in SYSTEM.ends:
        with Gateway(tunnels(2)) as gate:
            client = Client(gate.ports[0x10])
            said = gate.end(order)
            assert client.hear(lambda it: is_farewell(it, 0x20)) is not None, order
            assert "\nreport after " in said and said.endswith("\nend of report\n"), said


def is_routed(client, listener, count):
    """Whether so many broadcasts pass, of which each gives a line for each of 32 networks."""
    for k in range(count):
        client.say(address(0, EVERYONE, GAME), b"%d" % k)
        if listener.hear()[30:] != b"%d" % k:
            return False
    return True


def nobody_reads():
    """While nobody reads its lines it routes on; then it tells how many are missing. It ends, though nobody reads that."""
    with Gateway(tunnels(32, extra="extend 4003\nrate none\n"), options=["--log"]) as gate:
        a, b = Client(gate.ports[0x10]), Client(gate.ports[0x20])
        assert is_routed(a, b, STALLED)
        missing = re.fullmatch(r"(\d+) lines are missing here: they weren't read in time", gate.told("lines are missing here"))
        assert missing and int(missing[1]) > 0
        assert is_routed(a, b, 1) and gate.told("out 00000020")
        assert is_routed(a, b, STALLED)
        gate.run.order(SYSTEM.end)
        assert gate.run.wait(timeout=LIMIT) == 0


def somebody_reads_slowly():
    """It ends though somebody reads its lines a little at a time: he would need minutes for those that wait."""
    with Gateway(tunnels(32, extra="extend 4003\nrate none\n"), options=["--log"]) as gate:
        assert is_routed(Client(gate.ports[0x10]), Client(gate.ports[0x20]), STALLED)
        gate.run.order(SYSTEM.end)
        end = time.monotonic() + LIMIT
        while gate.run.poll() is None and time.monotonic() < end:
            os.read(gate.run.stdout.fileno(), LITTLE)
            time.sleep(AGAIN)
        assert gate.run.poll() == 0


def whole_frames(capture):
    """How many whole frames a capture has, from its header on, and whether nothing is behind them."""
    at, count = PCAP_HEADER, 0
    while at + RECORD <= len(capture):
        behind = at + RECORD + int.from_bytes(capture[at + 8 : at + 12], sys.byteorder)
        if behind > len(capture):
            break
        at, count = behind, count + 1
    return count, at == len(capture)


def nobody_reads_the_capture():
    """While nobody reads a pipe that it captures into it routes on, and counts the frames that are missing, each whole; also when the reader goes."""
    with tempfile.TemporaryDirectory() as folder:
        pipe = os.path.join(folder, "pipe")
        os.mkfifo(pipe)
        reader = os.open(pipe, os.O_RDONLY | os.O_NONBLOCK)
        extra = "rate none\nextend 4003\n"
        with Gateway(tunnels(2, extra=extra), options=["--pcap", pipe]) as gate:
            a, b = Client(gate.ports[0x10]), Client(gate.ports[0x20])
            for k in range(UNREAD):
                a.say(address(0, EVERYONE, GAME), b"%d " % k + bytes(LONG_WORD))
                assert b.hear()[30:].startswith(b"%d " % k)
            missing = int(re.search(r"(?m)^capture: (\d+) frames are missing: ", gate.report())[1])
            assert missing > 0
            capture = []
            until(lambda: capture.append(read_all(reader)) or whole_frames(b"".join(capture))[0] + missing >= 2 * UNREAD, "all frames")
            assert whole_frames(b"".join(capture))[1], "a frame is cut"
            os.close(reader)
            for k in range(2):
                a.say(address(0, EVERYONE, GAME), b"%d " % k)
                assert b.hear()[30:].startswith(b"%d " % k)
            gate.run.order(SYSTEM.end)
            _, complaint = gate.run.communicate(timeout=LIMIT)
            assert gate.run.returncode == 0 and complaint == b"ipxr-gateway: the capture ends: nobody reads it any more\n", complaint


def nobody_reads_the_fifo_yet():
    """A capture into a FIFO waits for its reader beside the routing, which begins at once; he reads it from its beginning. A configuration
    that has become a FIFO, into which nobody writes, is refused at once, too."""
    with tempfile.TemporaryDirectory() as folder:
        fifo = os.path.join(folder, "fifo")
        os.mkfifo(fifo)
        with Gateway(tunnels(2, extra="extend 4003\n"), options=["--pcap", fifo]) as gate:
            a, b = Client(gate.ports[0x10]), Client(gate.ports[0x20])
            early = b"said before somebody reads"
            a.say(address(0, EVERYONE, GAME), early)
            assert b.hear()[30:] == early
            os.remove(gate.configuration)
            os.mkfifo(gate.configuration)
            gate.run.order(signal.SIGHUP)
            assert is_routed(a, b, 1)
            reader = os.open(fifo, os.O_RDONLY)
            capture = read_all(reader)
            assert whole_frames(capture)[1] and early in capture, capture
            os.close(reader)
            gate.run.order(SYSTEM.end)
            _, complaint = gate.run.communicate(timeout=LIMIT)
            assert gate.run.returncode == 0 and b": expected a line that begins with network\n" in complaint, complaint


@played_anew
def its_reader_goes_at_the_end():
    """That nobody reads a capture any more is told also where it happens behind the last frame, while the gateway ends."""
    with tempfile.TemporaryDirectory() as folder:
        fifo = os.path.join(folder, "fifo")
        os.mkfifo(fifo)
        with Gateway(tunnels(2, extra="rate none\nextend 4003\n"), options=["--pcap", fifo]) as gate:
            a, b = Client(gate.ports[0x10]), Client(gate.ports[0x20])
            for k in range(MORE_THAN_A_PIPE):
                a.say(address(0, EVERYONE, GAME), b"%d " % k + bytes(LONG_WORD))
                assert b.hear()[30:].startswith(b"%d " % k)
            gate.run.order(SYSTEM.end)
            gate.lines_to("end of report")
            time.sleep(QUIET)
            os.close(os.open(fifo, os.O_RDONLY | os.O_NONBLOCK))
            _, complaint = gate.run.communicate(timeout=LIMIT)
            assert gate.run.returncode == 0 and complaint == b"ipxr-gateway: the capture ends: nobody reads it any more\n", complaint


def its_files_are_closed():
    """Started without standard input, output and error, it gives their numbers to no link: PCs get frames alone."""
    with contextlib.ExitStack() as all_of_it:
        servers = [all_of_it.enter_context(socket.create_server(("127.0.0.1", 0))) for _ in range(FIRST_FILES)]
        configuration = all_of_it.enter_context(tempfile.NamedTemporaryFile("w", encoding="ascii"))
        for k, server in enumerate(servers):
            server.settimeout(LIMIT)
            configuration.write(f"network {k + 1}0 1 1490 qemu-tcp connect {server.getsockname()[1]} raw\n")
        configuration.flush()
        run = subprocess.Popen(["sh", "-c", 'exec "$@" <&- >&- 2>&-', "sh", SYSTEM.program, "--log", configuration.name])
        pcs = [all_of_it.enter_context(it.accept()[0]) for it in servers]
        run.send_signal(signal.SIGUSR1)
        select.select(pcs[-1:], [], [], LIMIT)
        said = [read_all(it.fileno()) for it in pcs]
        run.terminate()
        assert run.wait(timeout=LIMIT) == 0
        assert all(said) and not any(b"network" in it + read_all(pc.fileno()) for it, pc in zip(said, pcs)), said


def a_capture_may_not_grow():
    """Where a file may not grow any more the capture ends, which is told, and it routes on."""
    with tempfile.TemporaryDirectory() as folder:
        options = ["--pcap", os.path.join(folder, "capture")]
        with Gateway(tunnels(2, extra="extend 4003\n"), options=options, before=["sh", "-c", 'ulimit -f 1 && exec "$@"', "sh"]) as gate:
            a, b = Client(gate.ports[0x10]), Client(gate.ports[0x20])
            for k in range(10):
                a.say(address(0, EVERYONE, GAME), b"%d " % k + bytes(LONG_WORD))
                assert b.hear()[30:].startswith(b"%d " % k)
            gate.run.order(SYSTEM.end)
            _, complaint = gate.run.communicate(timeout=LIMIT)
            assert gate.run.returncode == 0 and complaint == b"ipxr-gateway: the capture ends: File too large\n", complaint


def read_all(reader):
    """All that comes out of a pipe until nothing has come for a while."""
    pieces = []
    while select.select([reader], [], [], QUIET)[0]:
        pieces.append(os.read(reader, 1 << 20))
        if not pieces[-1]:
            break
    return b"".join(pieces)


def told_until(terminal, words):
    """All that a terminal shows, until it has shown some words."""
    told, end = b"", time.monotonic() + LIMIT
    while words not in told:
        ready, _, _ = select.select([terminal], [], [], max(0, end - time.monotonic()))
        assert ready, f"never: {words} in {told}"
        told += os.read(terminal, 65536)
    return told


def typed():
    """Ctrl-C that is typed at a terminal ends it, with a report."""
    with tempfile.NamedTemporaryFile("w", encoding="ascii") as configuration:
        configuration.write(tunnels(2))
        configuration.flush()
        process, terminal = pty.fork()
        if process == 0:
            words = [*SYSTEM.quick, SYSTEM.program, configuration.name]
            os.execvp(words[0], words)
        try:
            told_until(terminal, b"network 00000020 on")
            os.write(terminal, CTRL_C)
            told_until(terminal, b"end of report")
            _, status = os.waitpid(process, 0)
        except AssertionError:
            os.kill(process, signal.SIGKILL)
            os.waitpid(process, 0)
            raise
        finally:
            os.close(terminal)
        assert os.waitstatus_to_exitcode(status) == 0


def main():
    counts = tried(reports, lines_come, nobody_reads, somebody_reads_slowly, seconds_pass, told_to_end, typed)
    if has_linux("captures into pipes, closed files and limits of files", "these are others there"):
        for test in (nobody_reads_the_capture, nobody_reads_the_fifo_yet, its_reader_goes_at_the_end, its_files_are_closed,
                     a_capture_may_not_grow):
            counts.run(test)
    return counts


if __name__ == "__main__":
    begin(main)
