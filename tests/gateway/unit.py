"""The unit for systemd."""
import os
import re
import shutil
import subprocess
import tempfile

from systems import TOP
from trying import Counts, begin, has_linux, left_out, tried

MOST = 2.9  # of systemd's 10.0 for a service that may do everything


def text_of_unit():
    with open(os.path.join(TOP, "gateway", "systems", "linux", "ipxr-gateway.service.in"), encoding="ascii") as it:
        return it.read().replace("@PREFIX@", "/usr")


def keeps_its_key():
    """The unit gives the gateway a folder of its own, in which it keeps the key of its clients' nodes."""
    lines = text_of_unit().splitlines()
    assert "StateDirectory=ipxr-gateway" in lines and "StateDirectoryMode=0700" in lines, lines


def little_is_allowed():
    """The unit allows the gateway little beside what it needs: systemd gives it at most 2.9 points of exposure, of ten."""
    with tempfile.TemporaryDirectory() as folder:
        unit = os.path.join(folder, "ipxr-gateway.service")
        with open(unit, "w", encoding="ascii") as it:
            it.write(text_of_unit())
        words = ["systemd-analyze", "security", "--offline=true", "--no-pager", unit]
        told = subprocess.run(words, capture_output=True, text=True, check=False)
    found = re.search(r"Overall exposure level for ipxr-gateway.service: ([0-9.]+)", told.stdout)
    assert found, told.stdout + told.stderr
    print(f"        exposure {found[1]}", flush=True)
    assert float(found[1]) <= MOST, told.stdout


def knows_offline():
    """Whether there is a systemd-analyze that judges files."""
    if not shutil.which("systemd-analyze"):
        return False
    return "--offline" in subprocess.run(["systemd-analyze", "--help"], capture_output=True, text=True, check=False).stdout


def main():
    if has_linux("the unit for systemd", "there is none on Windows"):
        if knows_offline():
            return tried(keeps_its_key, little_is_allowed)
        left_out("how much the unit allows", "no systemd-analyze that judges files")
        return tried(keeps_its_key)
    return Counts()


if __name__ == "__main__":
    begin(main)
