"""A server for DOSBox: python3 server.py 2130, and in each DOSBox IPXNET CONNECT ADDRESS 2130. All players are on one network, where a
router answers what programs ask of one. It gives each a node of its own."""
import select
import socket
import sys
import time

import ipxr

NETWORK, NODE, LONGEST = "10", "020000000001", 1424


class Server:
    """A tunnel and a router on its network."""

    def __init__(self, port: int) -> None:
        self.keys = ipxr.Keys()
        self.router = ipxr.Router([ipxr.Port(NETWORK, NODE, longest=LONGEST)])
        self.tunnel = ipxr.KeyedTunnel(NETWORK, NODE, capacity=64, share=16)
        self.udp = socket.socket(socket.AF_INET, socket.SOCK_DGRAM)
        self.udp.bind(("", port))

    def send(self, place: ipxr.Place, data: bytes) -> None:
        try:
            self.udp.sendto(data, place.pair)
        except OSError:
            pass  # what is lost is lost, as on a cable

    def happened(self, it: ipxr.Happened) -> None:
        for _, node, data in it.sent:
            for place in self.tunnel.send(node):
                self.send(place, data)

    def hear(self) -> None:
        data, place = self.udp.recvfrom(LONGEST + 1)
        if len(data) > LONGEST:
            return
        heard = self.tunnel.hear(self.keys.keyed_sender(place, time.time()), data)
        for to, own in heard.owns:
            self.send(to, own)
        for to in heard.receivers:
            self.send(to, heard.packet)
        if heard.is_heard:
            self.happened(self.router.packet(0, heard.packet))

    def second(self) -> None:
        for to, own in self.tunnel.second().owns:
            self.send(to, own)
        self.happened(self.router.second())

    def serve(self) -> None:
        self.happened(self.router.start())
        told = time.monotonic()
        while True:
            if select.select([self.udp], [], [], 1)[0]:
                self.hear()
            if time.monotonic() - told >= 1:
                told += 1
                self.second()


if __name__ == "__main__":
    Server(int(sys.argv[1]) if len(sys.argv) > 1 else 213).serve()
