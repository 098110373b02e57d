"""WebSockets of others, where they are there: of Debian's python3-websockets, of Node, of Chromium and of Firefox, the last two by a page. Each is
a DOSBox, as far as the gateway sees it, on a network with a client that speaks by UDP."""
import contextlib
import functools
import http.server
import os
import shutil
import subprocess
import tempfile
import threading

from lab import EVERYONE, GAME, LIMIT, Client, Gateway, address, free_ports
from trying import begin, left_out, named, tried

HOST = "127.0.0.1"
BACK, HEARD = b"back", b"heard"
DEBIANS = "/usr/bin/python3"  # for which Debian's packages are there

# It registers, says its name to all until it hears BACK, says HEARD then, and answers pings.
PLAYER = """
function play(address, name) {
    const web = new WebSocket(address);
    let node = null, timer = null;
    const put = (to, socket, text) => {
        const bytes = new Uint8Array(30 + text.length);
        bytes.set([255, 255, 0, bytes.length, 0, 4]);
        bytes.set(to, 10);
        bytes.set([socket >> 8, socket & 255], 16);
        bytes.set(node || [0, 0, 0, 0, 0, 0], 22);
        bytes.set([socket >> 8, socket & 255], 28);
        bytes.set(new TextEncoder().encode(text), 30);
        web.send(bytes);
    };
    const all = [255, 255, 255, 255, 255, 255];
    web.binaryType = "arraybuffer";
    web.onopen = () => put([0, 0, 0, 0, 0, 0], 2, "");
    web.onmessage = (event) => {
        const bytes = new Uint8Array(event.data), socket = bytes[16] << 8 | bytes[17], text = new TextDecoder().decode(bytes.slice(30));
        if (socket === 2 && bytes[10] === 255 && node)
            put(bytes.slice(22, 28), 2, "");
        else if (socket === 2 && !node) {
            node = bytes.slice(10, 16);
            timer = setInterval(() => put(all, 0x4003, name), 200);
        } else if (text === "back") {
            clearInterval(timer);
            put(all, 0x4003, "heard");
        }
    };
}
"""

# The same in Python.
PLAYER_IN_PYTHON = """
import asyncio, struct, sys, websockets
NOBODY, ALL = bytes(6), b"\\xff" * 6

def packet(node, to, socket, text):
    return struct.pack(">HHBB4x6sH4x6sH", 0xFFFF, 30 + len(text), 0, 4, to, socket, node, socket) + text

async def play(address, name):
    async with websockets.connect(address) as web:
        node = None
        await web.send(packet(NOBODY, NOBODY, 2, b""))
        while True:
            try:
                heard = await asyncio.wait_for(web.recv(), 0.2)
            except asyncio.TimeoutError:
                if node:
                    await web.send(packet(node, ALL, 0x4003, name))
                continue
            socket = int.from_bytes(heard[16:18], "big")
            if socket == 2 and heard[10] == 255 and node:
                await web.send(packet(node, heard[22:28], 2, b""))
            elif socket == 2 and not node:
                node = heard[10:16]
            elif heard[30:] == b"back":
                await web.send(packet(node, ALL, 0x4003, b"heard"))
                await web.close()
                return

asyncio.run(play(sys.argv[1], sys.argv[2].encode()))
"""


class Quiet(http.server.SimpleHTTPRequestHandler):
    """A server of files that says nothing of what it does."""

    def log_message(self, *_):
        pass


@contextlib.contextmanager
def serving(folder):
    """Serves a folder to browsers. Gives the port."""
    server = http.server.ThreadingHTTPServer((HOST, 0), functools.partial(Quiet, directory=folder))
    threading.Thread(target=server.serve_forever, daemon=True).start()
    try:
        yield server.server_address[1]
    finally:
        server.shutdown()
        server.server_close()


@contextlib.contextmanager
def running(*words):
    """A program and all that it starts, which end with the test."""
    with subprocess.Popen(words, stdin=subprocess.DEVNULL, stdout=subprocess.DEVNULL, stderr=subprocess.DEVNULL, start_new_session=True) as run:
        try:
            yield
        finally:
            with contextlib.suppress(ProcessLookupError):
                os.killpg(run.pid, 9)


def plays(begins, network=0x10):
    """Whether somebody who begins so, by the address of his WebSocket and his name, and a client by UDP hear each other."""
    udp, tcp = free_ports(2)
    with Gateway(f"network {network:X} 1 1424\nlink dosbox {HOST}:{udp}\nlink web {HOST}:{tcp}\n") as gate:
        box = Client(udp, gateway=gate.nodes[network])
        with tempfile.TemporaryDirectory() as folder, begins(f"ws://{HOST}:{tcp}/ipx/{network:X}", "it is me", folder):
            said = box.hear(lambda it: it[30:] == b"it is me", 2 * LIMIT)
            assert said is not None, "it isn't heard"
            box.say(address(0, said[22:28], GAME), BACK)
            assert box.hear(lambda it: it[30:] == HEARD) is not None, "it hears nothing"
            assert said[10:16] == EVERYONE and said[22:28].hex().upper() in gate.report()


def written(folder, name, text):
    path = os.path.join(folder, name)
    with open(path, "w", encoding="utf-8") as it:
        it.write(text)
    return path


def by_python(address_, name, folder):
    return running(DEBIANS, written(folder, "player.py", PLAYER_IN_PYTHON), address_, name)


def by_node(address_, name, folder, options=()):
    return running("node", *options, written(folder, "player.js", f"{PLAYER}\nplay({address_!r}, {name!r});\n"))


@contextlib.contextmanager
def by_page(address_, name, folder, browser=()):
    """By a page of the same host, in a browser that shows it."""
    written(folder, "index.html", f"<!DOCTYPE html><title>player</title><script>{PLAYER}\nplay({address_!r}, {name!r});</script>")
    with serving(folder) as port, running(*(word.replace("FOLDER", folder) for word in browser), f"http://{HOST}:{port}/"):
        yield


def succeeds(*words):
    return subprocess.run(words, stdin=subprocess.DEVNULL, stdout=subprocess.DEVNULL, stderr=subprocess.DEVNULL, check=False).returncode == 0


def node_options():
    """The words by which Node has WebSocket, or None."""
    for options in (), ("--experimental-websocket",):
        if shutil.which("node") and succeeds("node", *options, "-e", "new WebSocket('ws://127.0.0.1:9').onerror = () => process.exit(0)"):
            return options
    return None


CHROMIUM = ("chromium", "--headless=new", "--no-sandbox", "--disable-gpu", "--disable-dev-shm-usage", "--user-data-dir=FOLDER/profile")
FIREFOX = ("firefox-esr", "--headless", "--no-remote", "--profile", "FOLDER")


def others():
    """The tests of those that are there; of the others it is told that they are left out."""
    options = node_options()
    for name, is_there, begins in (
        ("python3-websockets", os.path.exists(DEBIANS) and succeeds(DEBIANS, "-c", "import websockets"), by_python),
        ("Node's WebSocket", options is not None, functools.partial(by_node, options=options or ())),
        ("Chromium", shutil.which("chromium") is not None, functools.partial(by_page, browser=CHROMIUM)),
        ("Firefox", shutil.which("firefox-esr") is not None, functools.partial(by_page, browser=FIREFOX)),
    ):
        if is_there:
            yield named(f"{name} and a DOSBox by UDP hear each other on one network", plays, begins)
        else:
            left_out(f"{name} on a link of `web`", "it isn't there")


def main():
    return tried(*others())


if __name__ == "__main__":
    begin(main)
