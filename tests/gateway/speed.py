"""How fast the gateway is, with limits that all of it keeps to, beside a program that only hands on what it gets: tools/gateway bench."""
import os
import subprocess
import sys

from lab import Gateway, tunnels
from systems import BUILD, SYSTEM, TOP


def main():
    program = os.path.join(BUILD, "speed")
    source = os.path.join(TOP, "tests", "gateway", "speed.c")
    subprocess.run(["cc", "-std=c99", "-O2", "-Wall", "-Wextra", "-pedantic", source, "-o", program], check=True)
    with Gateway(tunnels(3, extra="rate 1000000 50 1000000\nstrangers none\n"), SYSTEM.delivered) as gate:
        ports = [str(gate.ports[it]) for it in sorted(gate.ports)]
        return subprocess.run([program, str(gate.run.pid), *ports], check=False).returncode


if __name__ == "__main__":
    sys.exit(main())
