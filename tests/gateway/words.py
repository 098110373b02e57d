"""The configuration and the command line."""
import difflib
import errno
import fcntl
import os
import pty
import re
import select
import subprocess
import tempfile
import termios

from lab import LIMIT, Gateway, text_of, tunnels
from systems import BUILD, SYSTEM, TOP, Windows, fault_words
from trying import begin, tried

HERE = os.path.join(TOP, "tests", "gateway")
STDIN = "/dev/stdin"
LONGEST_FILE = 1 << 20


def asked(*words, stdin=b"", folder=HERE):
    """What the program says to words that don't let it route: status, output, complaint. Windows has no file that is standard input: there
    it reads a file, and what it says of that is told as of standard input. It always says something: where it doesn't, Wine hasn't begun
    it, and it is asked once more."""
    with tempfile.NamedTemporaryFile() as file:
        file.write(stdin)
        file.flush()
        name = file.name if SYSTEM is Windows else STDIN
        command = [*SYSTEM.quick, SYSTEM.program, *(name if it == STDIN else it for it in words)]
        how = {"input": stdin, "capture_output": True, "timeout": LIMIT, "cwd": folder, "check": False}
        run = subprocess.run(command, **how)
        if SYSTEM is Windows and not run.stdout + run.stderr:
            run = subprocess.run(command, **how)
    return run.returncode, *(text_of(it).replace(name, STDIN) for it in (run.stdout, run.stderr))


def kept(name):
    """The complaints of a wrong configuration, as they are kept; those of a system without cards, or with interfaces alone, are others where
    it knows no such link."""
    own = os.path.join(HERE, f"{name}.interfaces.out" if SYSTEM is Windows else f"{name}.cardless.out")
    path = own if not SYSTEM.has_cards and os.path.exists(own) else os.path.join(HERE, f"{name}.out")
    with open(path, encoding="utf-8") as it:
        return it.read()


def each_wrong_line():
    """Each wrong line of a configuration is told with its number, its word and what was expected."""
    status, out, complaint = asked("--check", "wrong.conf")
    differs = "\n".join(difflib.unified_diff(kept("wrong").splitlines(), complaint.splitlines(), lineterm="", n=0))
    assert (status, out, differs) == (2, "", ""), differs


def nothing_is_opened():
    """A wrong configuration is told without --check too, and nothing is opened."""
    status, out, complaint = asked("/dev/stdin", stdin=b"network 10 1 1424 dosbox 0\nnetwork 20 1 1424 dosbox x\n")
    assert (status, out) == (2, "") and complaint.startswith("/dev/stdin:2: 'x': expected a numeric address"), complaint


def no_configuration():
    """A file that isn't there, an empty one, and one with a byte 0."""
    assert asked("--check", "nowhere")[::2] == (1, "nowhere: can't be opened: No such file or directory\n")
    assert asked("--check", "/dev/stdin")[::2] == (2, "/dev/stdin: expected a line that begins with network\n")
    status, _, complaint = asked("--check", "/dev/stdin", stdin=b"network 10\0 1 1424 dosbox 0\n")
    assert status == 2 and "expected text" in complaint
    # (Windows opens no folder)
    assert asked("--check", "..")[0] == (1 if SYSTEM is Windows else 2)


def a_long_word():
    """A word or a line of sixty thousand bytes is told by how it begins."""
    begins, most = "A" * 100 + "..", 60_000
    for text, told in ((b"network " + b"A" * most, f"'{begins}': expected the number of a network"),
                       (b"A" * most, f"'{begins}': expected network, link, "),
                       (b"A" * most + b"\0", f"'{begins}': expected text, there is a byte 0 behind it"),
                       (b"network 10 1 1424 dosbox 0 " + b"\xff" * 101, "'" + r"\xFF" * 100 + "..': expected nothing more"),
                       (b"1 " * (most // 2), "'1': expected at most 32 words")):
        status, _, complaint = asked("--check", STDIN, stdin=text)
        assert status == 2 and complaint.startswith(f"{STDIN}:1: {told}") and complaint.count("\n") == 1, complaint[:1000]


def too_much():
    """A line, a file or a number of faults that is too much is told, and nothing behind it is read: a file may have no end."""
    # (with 32 bits each line costs a copy of all that is known by then: there are fewer)
    line, wrong = b"# 345678\n" if SYSTEM.is_wide else b"#".ljust(1023) + b"\n", b"wrong\n"
    whole = line * (LONGEST_FILE // len(line))
    rest = LONGEST_FILE - len(whole)
    assert asked("--check", STDIN, stdin=whole + b"network 10 1 1424 dosbox 0\n"[:rest])[2].count("\n") == 1
    for text, told in ((b"A" * 50_000_000, f":1: '{'A' * 100}..': expected at most 65536 bytes in a line"),
                       (whole + line, f":{LONGEST_FILE // len(line) + 1}: '#': expected at most {LONGEST_FILE} bytes in all lines"),
                       (wrong * 2000, ":1001: 'wrong': 1000 lines are wrong: nothing is read from here on")):
        status, _, complaint = asked("--check", STDIN, stdin=text)
        assert status == 2 and complaint.endswith(f"{STDIN}{told}\n") and complaint.count("\n") <= 1001, complaint[-1000:]
    if SYSTEM is not Windows:
        assert asked("--check", "/dev/zero")[0] == 2


def what_editors_write():
    """A mark of UTF-8 at the beginning is no part of the first word; UTF-16 is told once, by its name and with what helps."""
    text = tunnels(2)
    assert asked("--check", STDIN, stdin=text.encode("utf-8-sig"))[:2] == (0, f"{STDIN}: 2 networks, nothing wrong\n")
    assert asked("--check", STDIN, stdin=b"\xef\xbb\xbf")[::2] == (2, f"{STDIN}: expected a line that begins with network\n")
    status, _, complaint = asked("--check", STDIN, stdin=b"\xef\xbb\xbfnetworks\n\xef\xbb\xbfnetwork\n")
    assert status == 2 and [it.split(": expected ")[0] for it in complaint.splitlines()] == [
        f"{STDIN}:1: 'networks'", rf"{STDIN}:2: '\xEF\xBB\xBFnetwork'"], complaint
    for encoding in ("utf-16", "utf-16-le", "utf-16-be"):
        told = f"{STDIN}: expected UTF-8 or plain text, this is UTF-16: save it as UTF-8\n"
        assert asked("--check", STDIN, stdin=text.encode(encoding)) == (2, "", told), encoding
    assert asked("--check", STDIN, stdin=b"\n" + text.encode("utf-16-le"))[0] == 2


def the_command_line():
    """A wrong command line is told with the word and what was expected, and how it is right."""
    status, use, complaint = asked("--help")
    assert (status, complaint) == (0, "") and use.startswith("ipxr-gateway [--log]")
    options = "--check, --log, --pcap, --status, --status-web, --example, --cards, --version, --help or a configuration"
    for words, what in (
        (("--check",), "the command line ends: expected a configuration"),
        (("--pcap", "wrong.conf"), "the command line ends: expected a configuration"),
        (("wrong.conf", "--pcap"), "the command line ends: expected a file for the capture behind --pcap"),
        (("wrong.conf", "--status"), "the command line ends: expected the path of a socket behind --status"),
        (("--chek", "wrong.conf"), f"'--chek': expected {options}"),
        (("-h",), f"'-h': expected {options}"),
        (("wrong.conf", "other.conf"), "'other.conf': expected one configuration"),
    ):
        assert asked(*words) == (64, "", f"ipxr-gateway: {what}\n{use}"), words


def the_version():
    """--version prints the release."""
    with open(os.path.join(TOP, "VERSION"), encoding="utf-8") as file:
        assert asked("--version") == (0, f"ipxr-gateway {file.read().strip()}\n", "")


def no_words():
    """Without a word it says in three lines what to write, and the configuration there is right."""
    status, out, complaint = asked()
    first, *lines = complaint.splitlines()
    assert (status, out, first, len(lines)) == (64, "", "ipxr-gateway: the command line ends: expected a configuration", 3), complaint
    line = re.search("`(network [^`]*)`", complaint)[1]
    assert asked("--check", STDIN, stdin=f"{line}\n".encode())[:2] == (0, f"{STDIN}: 1 network, nothing wrong\n")


def console_of_its_own(words, stop, key):
    """What a program writes to a console that is its alone, until some bytes have come; then a key is pressed. Returns its status too."""
    near, far = pty.openpty()
    how = {"stdin": far, "stdout": far, "stderr": far, "start_new_session": True, "env": {**os.environ, "TERM": "xterm"}}
    with subprocess.Popen(words, preexec_fn=lambda: fcntl.ioctl(far, termios.TIOCSCTTY, 0), **how) as run:
        os.close(far)
        said = b""
        while stop not in said and select.select([near], [], [], LIMIT)[0]:
            said += os.read(near, 4096)
        is_waiting = run.poll() is None
        os.write(near, key)
        status = run.wait(timeout=LIMIT)
    os.close(near)
    return status, said, is_waiting


def clicked_twice():
    """In a console of its own, as where somebody clicks it twice, it says without words what to do, and waits for a key."""
    status, said, is_waiting = console_of_its_own([*SYSTEM.quick, SYSTEM.program], b"Press a key", b"x")
    assert (status, is_waiting) == (64, True) and b"network 10 1 1424 dosbox 2130" in said and b"To open one here, type cmd" in said, said


def the_example():
    """--example prints the configuration of the sources, which is right, and has one network of DOSBox' on this machine alone."""
    status, out, complaint = asked("--example")
    with open(os.path.join(TOP, "gateway", "configuration", "example.conf"), encoding="utf-8") as it:
        assert (status, out, complaint) == (0, it.read(), "")
    assert asked("--check", STDIN, stdin=out.encode())[:2] == (0, f"{STDIN}: 1 network, nothing wrong\n")
    assert re.findall(r"(?m)^[^#\n]+$", out) == ["network 10      1     1424               dosbox 127.0.0.1:2130"], out


def what_cannot_be_written():
    """Words that only print something end with 1, and say why, where it can't be written."""
    for words in ["--example"], ["--cards"], ["--help"], ["--version"], ["--check", STDIN]:
        with open("/dev/full", "wb") as full:
            run = subprocess.run([*SYSTEM.quick, SYSTEM.program, *words], input=tunnels(1).encode(), stdout=full, stderr=subprocess.PIPE,
                                 timeout=LIMIT, check=False)
        assert run.returncode == 1 and b"standard output can't be written: No space left on device\n" in run.stderr, (words, run)


def status_on_windows():
    """On Windows the status socket is a pipe: another path is refused, and so it is told where nobody listens."""
    why = "on Windows the path is that of a pipe, and begins with \\\\.\\pipe\\"
    status, _, complaint = asked("--status", "status", STDIN, stdin=tunnels(1).encode())
    assert status == 1 and complaint.endswith(f"ipxr-gateway: status: can't listen there: {why}\n"), complaint
    assert asked("show", "--status", "status") == (1, "", f"ipxr-gateway: no gateway answers at status: {why}\n")
    nobody = f"\\\\.\\pipe\\nobody-{os.getpid()}"
    assert asked("show", "--status", nobody) == (1, "", f"ipxr-gateway: no gateway answers at {nobody}: No such file or directory\n")


def what_is_right():
    """What is right is told so: the example, 32 networks, shares, blanks, comments, a port at both ends, the last line without its end."""
    example = os.path.join(TOP, "gateway", "configuration", "example.conf")
    assert asked("--check", example)[:2] == (0, f"{example}: 1 network, nothing wrong\n")
    many = tunnels(32).encode()
    assert asked("--check", "/dev/stdin", stdin=many)[:2] == (0, "/dev/stdin: 32 networks, nothing wrong\n")
    status, _, complaint = asked("--check", "/dev/stdin", stdin=many + b"network FF 1 1424 dosbox 0\n")
    assert status == 2 and complaint == "/dev/stdin:33: 'network': expected at most 32 networks\n"
    for text in (b"\t network  FFFFFFFD 65535 1424 0 65535 dosbox :0 # a comment\r\n\n#\nextend FFFF 1",
                 b"network 20 1 1424 dosbox 0\nstrangers none\nnodes by-address\nadopt no",
                 b"network 20 1 1424 dosbox 0\ndeny type 20\npermit route 1-FFFFFFFE in\ndeny service FFFF A* out\n" + b"deny nearest\n" * 61,
                 b"network 20 1 1424 dosbox 0\nroute 1 1 1 via 02:00:00:00:00:01\nroute FFFFFFFE 15 65535 via 020000000001\n"
                 b"service FFFE " + b"A" * 47 + b" FFFFFFFD.FFFFFFFFFFFE.FFFF 15 via 020000000001\n",
                 b"network 20 1 1500 qemu-udp 0.0.0.0:5001 192.0.2.7:5001 raw",
                 b"network 20 1 1500 qemu-udp [::]:5001 [2001:db8::7]:5001 raw",
                 b"network 20 1 1500 udp 0.0.0.0:5001 192.0.2.7:5001 raw node 020000000001",
                 b"network 20 1 1500\nlink qemu-mcast 239.255.255.255:65535 raw\nlink qemu-mcast 224.0.0.0:1 via 192.0.2.7 raw\n"
                 b"link qemu-mcast 239.255.255.255:65535 via 192.0.2.7 raw\nlink qemu-mcast 224.0.0.0:1 via 192.0.2.7 ethernet2\n"
                 b"link udp 192.0.2.7:1 192.0.2.8:1 raw",
                 b"network 20 1 1424\nlink web 8080\nclients 10 2\nallow 10.0.0.0/8\ntrust 10.0.0.1\nrate 100 50 1600\nstrangers 5\nline 1000\n"
                 b"nodes by-address\norigins * " + b"http://" + b"a" * 80 + b"\nlink web 8080 auto\nrate 100\norigins https://a:1\n"
                 b"link web 127.0.0.2:8080 raw\nlink qemu-tcp listen 127.0.0.3:8080 raw",
                 b"network 20 1 1492 peers [::]:0 " + b"k" * 253 + b" auto node 020000000001\npeer [2001:db8::9]:65535\npeer " + b"a" * 253 + b":1\nrate 100",
                 b"network 20 1 1360\nlink dosbox 0\nlink peers 0.0.0.0:2131 hub.key raw\npeer 192.0.2.9:1\nlink dosbox 0\nclients 10\n" +
                 b"".join(b"peer b.example.net:%d\n" % k for k in range(1, 32)),
                 b"network 20 1 1472 rfc1234 127.0.0.1:213\npeer 192.0.2.9:213\npeer b.example.net:213",
                 *([b"network 20 1 1500 vde /" + b"a" * 89 + b" raw node 020000000001"] if SYSTEM.has_cards else [])):
        told = asked("--check", "/dev/stdin", stdin=text)
        assert told[:2] == (0, "/dev/stdin: 1 network, nothing wrong\n"), (text, told)


def as_many_links():
    """A file has 64 links, on networks of several or of one; one more of either kind is told."""
    several = "".join(f"network {n} 1 1400\n" + "link dosbox 0\n" * count for n, count in ((10, 32), (11, 31)))
    one = "network {} 1 1400 dosbox 0\n"
    right = several + one.format(20)
    assert asked("--check", STDIN, stdin=right.encode())[:2] == (0, f"{STDIN}: 3 networks, nothing wrong\n")
    for more in (one.format(21), "network 21 1 1400\nlink dosbox 0\n"):
        status, _, complaint = asked("--check", STDIN, stdin=(right + more + one.format(22)).encode())
        word = "network" if "link" not in more else "link"
        line = 67 + ("link" in more)
        assert status == 2 and complaint.startswith(f"{STDIN}:{line}: '{word}': expected at most 64 links\n"), complaint
    status, _, complaint = asked("--check", STDIN, stdin=(several + "link dosbox 0\n" + one.format(20) * 9).encode())
    assert status == 2 and complaint.count("expected at most 64 links") == 9, complaint


def as_many_rules():
    """Below a network stand 64 rules; one more is told."""
    right = b"network 20 1 1424 dosbox 0\n" + b"deny nearest\n" * 64
    status, _, complaint = asked("--check", STDIN, stdin=right + b"deny type 20\n")
    assert status == 2 and complaint == f"{STDIN}:66: 'deny': expected at most 64 rules of a network\n", complaint


def as_many_statics():
    """So do 64 routes by way of nodes, and 64 services."""
    for kind, many in (("route", [f"route {k:X} 1 1 via 020000000001\n" for k in range(0x100, 0x141)]),
                       ("service", [f"service {k:X} LAB A1.000000000001.451 1 via 020000000001\n" for k in range(1, 66)])):
        status, _, complaint = asked("--check", STDIN, stdin=("network 20 1 1424 dosbox 0\n" + "".join(many)).encode())
        assert status == 2 and complaint == f"{STDIN}:66: '{kind}': expected at most 64 {kind}s of a network\n", complaint


def as_many_peers():
    """And 32 other places."""
    many = "network 20 1 1360 peers 2131 hub.key raw\n" + "".join(f"peer 192.0.2.9:{k}\n" for k in range(1, 34))
    status, _, complaint = asked("--check", STDIN, stdin=many.encode())
    assert status == 2 and complaint == f"{STDIN}:34: 'peer': expected at most 32 of them in a network\n", complaint


def one_rate_a_link():
    """Networks on one link share a rate: below one of them it is right, below a second it is told where the first is."""
    frames = [f"network {number} 1 1492 qemu-udp 5001 192.0.2.7:5001 {kind}\n" for number, kind in ((20, "raw"), (30, "llc"))]
    right = f"{frames[0]}rate 900\n{frames[1]}"
    assert asked("--check", "/dev/stdin", stdin=right.encode())[:2] == (0, "/dev/stdin: 2 networks, nothing wrong\n")
    status, _, complaint = asked("--check", "/dev/stdin", stdin=f"{right}rate 800\n".encode())
    assert status == 2 and complaint == "/dev/stdin:4: 'rate': expected only once: line 2 has it\n", complaint


def names_and_marks():
    """Names in letters of any country, lines that end as on Windows, and a Ctrl-Z, which ends no file."""
    with tempfile.TemporaryDirectory() as folder:
        for text, status, told in (
            (tunnels(2).replace("\n", "\r\n"), 0, ": 2 networks, nothing wrong\n"),
            (tunnels(1) + "\x1a\nnetwork", 2,
             ":2: '\\x1A': expected network, link, extend, clients, allow, trust, rate, strangers, line, nodes, internal, adopt, permit, deny, route, service, origins or peer\n"),
        ):
            name = "Müller Ωμέγα.conf"
            with open(os.path.join(folder, name), "w", encoding="utf-8", newline="") as it:
                it.write(text)
            answer = asked("--check", name, folder=folder)
            assert answer[0] == status and "".join(answer[1:]).startswith(name + told), answer


def what_cannot_be_opened():
    """What can't be opened is told with its line, and the gateway ends; a capture that is there stays as it was."""
    with Gateway(tunnels(1)) as gate, tempfile.NamedTemporaryFile() as capture:
        capture.write(b"of another gateway")
        capture.flush()
        text = f"network 20 1 1424 dosbox {gate.ports[0x10]}\n".encode()
        status, _, complaint = asked("--pcap", capture.name, "/dev/stdin", stdin=text)
        assert status == 1 and "line 1: dosbox 127.0.0.1:" in complaint and complaint.endswith(f": {fault_words(errno.EADDRINUSE)}\n")
        with open(capture.name, "rb") as it:
            assert it.read() == b"of another gateway"
    if SYSTEM.has_cards:
        status, _, complaint = asked("/dev/stdin", stdin=b"network 20 1 1424 interface lo raw\n")
        assert status == 1 and "line 1: interface lo raw: it isn't Ethernet: " in complaint, complaint
    assert asked("--pcap", os.path.join(BUILD, "no", "file"), "/dev/stdin", stdin=tunnels(1).encode())[0] == 1


def main():
    counts = tried(each_wrong_line, nothing_is_opened, no_configuration, a_long_word, too_much, what_editors_write, the_command_line,
                   the_version, no_words, the_example, what_is_right, as_many_links, as_many_rules, as_many_statics, as_many_peers, one_rate_a_link, names_and_marks, what_cannot_be_opened)
    return counts + (tried(status_on_windows, clicked_twice) if SYSTEM is Windows else tried(what_cannot_be_written))


if __name__ == "__main__":
    begin(main)
