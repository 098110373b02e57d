"""Plays two players of DOSBox to a server that hands out nodes: players.py COMMAND.. which is run with a port behind it. Says nothing where
all goes well."""
import os
import subprocess
import sys

sys.dont_write_bytecode = True
sys.path.insert(1, os.path.join(os.path.dirname(os.path.realpath(__file__)), "../library"))
import server


def play(port):
    """What goes wrong between two players, or nothing."""
    anna, ben = server.Player(port), server.Player(port)
    for it in (anna, ben):
        it.come()
        it.say(server.EVERYBODY, b"I am here")
    anna.say(server.EVERYBODY, b"who plays?")
    if not ben.hears(anna.node, b"who plays?"):
        return "what one says to all, the other doesn't hear"
    ben.say(anna.node, b"I do")
    return None if anna.hears(ben.node, b"I do") else "what one says to the other isn't heard"


def main(words):
    port = server.free_port()
    with subprocess.Popen([*words, str(port)], stdout=subprocess.DEVNULL) as run:
        try:
            return play(port)
        finally:
            run.terminate()


if __name__ == "__main__":
    sys.exit(main(sys.argv[1:]))
