"""The hash of which made-up nodes are made."""
import subprocess

from lab import LIMIT
from systems import SYSTEM
from trying import begin, tried


def vectors():
    """SipHash-2-4 gives each of the 64 hashes that its authors published."""
    run = subprocess.run([*SYSTEM.quick, SYSTEM.siphash], capture_output=True, timeout=LIMIT, check=False)
    assert run.returncode == 0, run.stdout.decode() + run.stderr.decode()


def main():
    return tried(vectors)


if __name__ == "__main__":
    begin(main)
