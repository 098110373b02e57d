"""Two real DOSBox' come to the example of a server, and one finds the other by IPXNET PING: boxes.py COMMAND.. which is run with a port behind
it. Says nothing where all goes well."""
import contextlib
import os
import re
import subprocess
import sys
import tempfile
import time

from server import free_port

SECONDS, BETWEEN_LOOKS = 120, 0.2
CONFIGURATION = """[sdl]
output=surface
[mixer]
nosound=true
[cpu]
core=normal
cycles=fixed 3000
[ipx]
ipx=true
[autoexec]
mount c {folder}
c:
ipxnet connect 127.0.0.1 {port} > connect.txt
"""
CONNECTED = re.compile(r"connected to server")
# (DOSBox shows the first four bytes of a node, and the others as a port: the router answers, too)
ANSWERED = re.compile(r"Response from (?!2\.0\.0\.0, port 1 )")
# Both speak at once, by which they are clients; the second asks until somebody answers.
SPEAKS = "ipxnet ping > spoken.txt\n"
ASKS = "".join(f"ipxnet ping > ping{number}.txt\n" for number in range(12)) + "exit\n"


class DosBox:
    """One without a screen, which connects and then waits, or asks who is there and ends."""

    def __init__(self, parent, name, port, asks):
        self.folder = os.path.join(parent, name)
        os.mkdir(self.folder)
        configuration = f"{self.folder}.conf"
        with open(configuration, "w", encoding="ascii") as it:
            it.write(CONFIGURATION.format(folder=self.folder, port=port) + SPEAKS + (ASKS if asks else ""))
        environment = {**os.environ, "SDL_VIDEODRIVER": "dummy", "SDL_AUDIODRIVER": "dummy", "HOME": parent}
        how = {"stdin": subprocess.DEVNULL, "stdout": subprocess.DEVNULL, "stderr": subprocess.DEVNULL}
        self.run = subprocess.Popen(["dosbox", "-conf", configuration], env=environment, **how)

    def says(self, name, what):
        """Whether something stands in a file that DOSBox writes, now or soon."""
        ends = time.monotonic() + SECONDS
        while time.monotonic() < ends:
            for file in os.listdir(self.folder):
                with contextlib.suppress(OSError), open(f"{self.folder}/{file}", encoding="ascii", errors="replace") as it:
                    if file.lower().startswith(name) and what.search(it.read()):
                        return True
            if self.run.poll() is not None:
                return False
            time.sleep(BETWEEN_LOOKS)
        return False

    def end(self):
        if self.run.poll() is None:
            self.run.kill()
            self.run.wait()


def met(folder, port):
    """Nothing where one finds the other, or else what was missing."""
    boxes = []
    try:
        for name in ("waits", "asks"):
            boxes.append(DosBox(folder, name, port, name == "asks"))
            if not boxes[-1].says("connect", CONNECTED):
                return f"the one that {name} isn't connected"
        return None if boxes[1].says("ping", ANSWERED) else "nobody answers the one that asks"
    finally:
        for box in boxes:
            box.end()


def main(words):
    port = free_port()
    with tempfile.TemporaryDirectory() as folder, subprocess.Popen([*words, str(port)]) as server:
        try:
            time.sleep(0.5)
            return met(folder, port)
        finally:
            server.terminate()


if __name__ == "__main__":
    sys.exit(main(sys.argv[1:]))
