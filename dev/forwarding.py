"""A script of packets that are forwarded, for measurements."""

LINES = 200_000
DATA = 270
# Different packets follow each other, so that no line knows the next one's bytes.
ROUND = 1009
PORTS = "port 00000010 000000000001 1 1500\nport 00000020 000000000002 1 1500\nstart\n"


def line(number):
    """The line of a packet from node AA on network 10 to a node of network 20."""
    header = f"FFFF{30 + DATA:04X}0000" + f"00000020{number + 16:012X}4003" + "000000100000000000AA4003"
    data = bytes((number * 31 + k * 7) % 256 for k in range(DATA)).hex().upper()
    return f"in 0 {header}{data}\n"


def write(file):
    """Writes the script to a file that takes bytes."""
    lines = [line(number).encode() for number in range(ROUND)]
    file.write(PORTS.encode())
    for at in range(0, LINES, ROUND):
        file.write(b"".join(lines[: LINES - at]))
    file.flush()
