"""Reads a file whose lines are as those of c/header.out, a name, a number and its words, and prints each with the words that the class
gives it.

The arguments are the shared library, libipxr.so.1, and the file.
"""
import os
import sys

sys.dont_write_bytecode = True
sys.path.append(os.path.join(os.path.dirname(os.path.realpath(__file__)), "../../examples/embed/python"))
import ipxr  # noqa: E402

PORTS = [(0x10, bytes([0, 0, 0, 0, 0, 1]), 1, 576)]

with ipxr.Router(ipxr.load(sys.argv[1]), PORTS) as router, open(sys.argv[2], encoding="ascii") as lines:
    for line in lines:
        name, number, _ = line.split(" ", 2)
        print(name, number, router.word(int(number)))
