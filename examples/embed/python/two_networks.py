"""Joins two networks, plays a few packets to the router, and prints what it sends; c/two_networks.c draws the networks.

The argument is the shared library, libipxr.so.1.
"""
import sys

import ipxr

PACKETS = [
    (1, "BB advertises network 30", "FFFF0028000100000020FFFFFFFFFFFF0453000000200000000000BB045300020000003000010002"),
    (0, "AA asks for all routes", "FFFF0028000100000010FFFFFFFFFFFF0453000000100000000000AA04530001FFFFFFFFFFFFFFFF"),
    (0, "AA writes to CC on network 20", "FFFF001E0000000000200000000000CC4003000000100000000000AA4003"),
    (0, "AA writes to network 99", "FFFF001E0000000000990000000000CC4003000000100000000000AA4003"),
    (0, "29 bytes come", "00" * 29),
]


def show(router, event, answer):
    print(f"{event}: {router.word(answer)}")
    for port, node, data in router.take_sent():
        print("out", port, node.hex().upper(), data.hex().upper())


def main():
    if len(sys.argv) != 2:
        sys.exit("usage: two_networks.py FOLDER/libipxr.so.1")
    ports = [(0x10, bytes([0, 0, 0, 0, 0, 1]), 1, 576), (0x20, bytes([0, 0, 0, 0, 0, 2]), 1, 576)]
    with ipxr.Router(ipxr.load(sys.argv[1]), ports) as router:
        show(router, "start", router.call("start"))
        for port, what, data in PACKETS:
            show(router, what, router.packet(port, bytes.fromhex(data)))
        for it in router.routes():
            print(f"route {it.network:08X} {it.hops} {it.ticks} {it.port} {bytes(it.node).hex().upper()} {it.age}")
        show(router, "second", router.call("second"))
        show(router, "port 1 goes down", router.call("port_down", 1))
        show(router, "stop", router.call("stop"))


if __name__ == "__main__":
    main()
