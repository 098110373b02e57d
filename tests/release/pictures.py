"""Pictures: those that are kept and those drawn anew, compared by their elements; and what must be seen in some of them."""
import glob
import os
import re
import shutil
import struct
import tempfile
from xml.etree import ElementTree

import layout
from trying import TOP, VERBS, differs, has, run, stories, tell, text_of

# Attributes that say where an element lies. They may differ by this much, since machines round otherwise.
PLACES = {"x", "y", "width", "height", "points", "viewBox", "transform"}
NEAR = 1
NUMBER = re.compile(r"-?\d+(?:\.\d+)?")
ALARM = "#c0262d"
KEPT = "tools/picture --kept"


def elements(picture):
    """The elements of a picture in their order: of each what it is and says, and the numbers of its place."""
    for it in ElementTree.fromstring(picture).iter():
        said = [f"{name}={value}" for name, value in sorted(it.items()) if name not in PLACES]
        place = [float(number) for name, value in sorted(it.items()) if name in PLACES for number in NUMBER.findall(value)]
        yield (it.tag.rpartition("}")[2], it.text or "", *said), place


def unlike(picture, other):
    """The first element in which two pictures differ, or nothing."""
    found, wanted = [*elements(picture)], [*elements(other)]
    for (said, place), (kept, there) in zip(found, wanted):
        if said != kept or len(place) != len(there) or any(abs(a - b) > NEAR for a, b in zip(place, there)):
            return f"{' '.join(said)} {place}, and kept is {' '.join(kept)} {there}"
    return "" if len(found) == len(wanted) else f"{len(found)} elements, and {len(wanted)} are kept"


def things(picture, start):
    """The elements with a key that begins so."""
    return [it for it in ElementTree.fromstring(picture).iter() if it.get("data-key", "").startswith(start)]


def labels(picture, start):
    """What is said of them for who doesn't see."""
    return [it.get("aria-label") for it in things(picture, start)]


def drawn(*words):
    """The picture that is drawn, or an empty one."""
    status, text = run("tools/picture", *words)
    return "<svg/>" if status else text


def try_kept(folder):
    """What --kept draws is what is kept."""
    shutil.copytree(f"{TOP}/examples", f"{folder}/examples")
    names = sorted(os.path.basename(it) for it in glob.glob(f"{folder}/examples/*.svg"))
    for it in names:
        os.remove(f"{folder}/examples/{it}")
    said = run("tools/picture", "--kept", f"{folder}/examples")
    made = sorted(os.path.basename(it) for it in glob.glob(f"{folder}/examples/*.svg"))
    tell("--kept draws each of the kept pictures", differs(said, (0, "")) or differs(made, names))
    wrong = []
    for it in made:
        with open(f"{folder}/examples/{it}", encoding="utf-8") as file:
            why = unlike(file.read(), text_of(f"examples/{it}"))
        wrong += [f"    {it} is another one ({KEPT}): {why}\n"] if why else []
    tell(f"the pictures of {len(stories())} stories are those that are kept, element by element", "".join(wrong))


def try_shown():
    """What has to be seen: a port that is down, the router that carries a packet, before and after, and names that differ."""
    ports = things(text_of("examples/ring-trace.svg"), "port ")
    red = sorted(it.get("aria-label") for it in ports if any(line.get("stroke") == ALARM for line in it))
    wanted = ["port 0 of A on network AB, down", "port 1 of B on network AB, down"]
    tell("at the fourth trace of the ring both ends of the failed link are red, and no other", differs(red, wanted))
    rows = "\n".join(labels(text_of("examples/nearest-server.svg"), "record "))
    tell("a ladder shows the router that carries a packet", "" if "10.1B0204AA to 10.1B0101B1 to BEEF.1: " in rows else f"    {rows}")
    heads = [it.partition(";")[0] for it in labels(text_of("examples/ring.svg"), "moment ")]
    wanted = ["70 s: before", "70 s: net AB fails at A and B", "120 s: 50 s later"]
    tell("the ring stands side by side before its failure, in it and afterwards", differs(heads[:3], wanted))
    ways = re.findall(r"<text[^>]*>([\d ]+…[\d ]+)</text>", text_of("examples/counting-up-trace.svg"))
    tell("a way that is gone sixteen times is told by three numbers for each direction", differs(sorted(ways), ["1 3 … 15", "2 4 … 16"]))


# Two routers between two hosts, and somebody else on the network between the routers who offers a better route than the second one.
PACKET = "FFFF001E0000000000020000000000BB40030000000A0000000000AA4003"
FALSE = f"""# West (router 0), East (router 1)
router
port 0000000A 000000000101 1 576
port 00000001 000000000102 1 576
router
port 00000001 000000000201 1 576
port 00000002 000000000202 1 576
start 0
start 1
settle 1000000
trace 0 0 100 {PACKET}
in 0 1 FFFF0028000100000001FFFFFFFFFFFF0453000000010000000000EE045300020000000200010000
settle 1000000
trace 0 0 100 {PACKET}
"""


def try_lost(folder):
    """A packet on a false route doesn't seem to arrive: a cross is where it got to."""
    with open(f"{folder}/false.internet", "w", encoding="utf-8") as it:
        it.write(FALSE)
    seen = []
    for number in ("1", "2"):
        picture = ElementTree.fromstring(drawn("--trace", number, f"{folder}/false.internet"))
        words = ["".join(it.itertext()) for it in picture.iterfind(".//{*}text")] or [""]
        seen.append((words.count("✕"), words[-1]))
    wanted = [(0, "arrived at BB on net 2 after 2 routers"), (1, "lost behind West: sent on to EE on net 1, which is no router")]
    tell("a packet on a false route ends at a cross, and it is said where", differs(seen, wanted))


def try_maps():
    """No box covers another, and no two have the same name."""
    wrong = []
    for file in glob.glob(f"{TOP}/examples/*.internet"):
        picture = drawn(file)
        boxes = [it for start in ("router ", "network ", "host ") for it in things(picture, start)]
        spans = [[float(it.find("{*}rect").get(side)) for side in ("x", "y", "width", "height")] for it in boxes]
        covered = [(a, b) for k, a in enumerate(spans) for b in spans[:k] if is_over(a, b)]
        names = ["".join(it.itertext()) for it in boxes if not it.get("data-key").startswith("host ")]
        if covered or not names or len(set(names)) < len(names):
            wrong.append(f"    {file}: {covered} {names}\n")
    tell("in the map of each internet no box covers another, and networks and routers have names that differ", "".join(wrong))


def is_over(one, other):
    return all(max(one[k], other[k]) < min(one[k] + one[k + 2], other[k] + other[k + 2]) for k in (0, 1))


def try_words(folder):
    """Moments by a line, names that tell nothing, and what can't be drawn, of which a line says why."""
    ring = f"{TOP}/examples/ring.internet"
    line = text_of("examples/ring.internet").split("\n").index("down 0 0") + 1
    seen = [[it for it in labels(drawn("--after", str(at), ring), "port ") if it.endswith("down")] for at in (line - 1, line)]
    tell("--after shows the ports that are down then", differs(seen, [[], ["port 0 of A on network AB, down"]]))
    wrong = []
    for file in stories():
        plain = f"{folder}/{os.path.splitext(os.path.basename(file))[0]}"
        shutil.copy(file, plain)
        found, wanted = ([said for said, _ in elements(it)][2:] for it in (drawn(plain), drawn(file)))
        wrong += [] if found == wanted else [f"    {file}\n"]
    tell("a file whose name doesn't end as its kind is drawn as well", "".join(wrong))
    for end in VERBS:
        with open(f"{folder}/empty{end}", "wb"):
            pass
    asked = [[f"{folder}/{name}{end}"] for name in ("empty", "missing") for end in VERBS]
    asked += [["--trace", "1", f"{TOP}/examples/drops.script"], ["--trace", "99", ring], ["--after", "9999", ring], ["--trace", "0", ring]]
    asked += [["--steps", f"{TOP}/examples/forged.internet"], [], ["--what", ring]]
    said = [(words, run("tools/picture", *words)) for words in asked]
    wrong = [f"    {words}: {text}\n" for words, (status, text) in said if status != 1 or text.count("\n") != 1]
    tell("what can't be drawn ends with a line that says why", "".join(wrong))
    bare = run("/bin/sh", "tools/picture", ring, env={"PATH": f"{folder}/nowhere"})
    tell("without Node a line says so", "" if bare[0] == 1 and bare[1].count("\n") == 1 and "Node" in bare[1] else f"    {bare}")


def try_captures():
    captures = sorted(glob.glob(f"{TOP}/tests/decode/*.pcap"))
    said = {it: run("tools/picture", it) for it in captures}
    bad = {it: text for it, (status, text) in said.items() if status > 1 or (status == 1 and text.count("\n") != 1)}
    wrong = [f"    {it}: {text[:200]}\n" for it, text in bad.items()]
    tell(f"{len(captures)} captures are drawn, or it is said in a line why not", "".join(wrong) if captures else "    there are none")


# Times of records, in thousandths of a second, and what the ladder says of them.
TIMES, TOLD = [7_250, 7_375, 9_500], ["0 s", "0.125 s", "2.25 s"]
# How captures begin, with how many parts of a second they count in a thousandth.
FINE = {"microseconds": (0xA1B2C3D4, 1_000), "nanoseconds": (0xA1B23C4D, 1_000_000)}


def timed(pcap, order, magic, parts):
    """A capture of one packet, again and again, at the times above."""
    frame = pcap.framed(PACKET)
    head = (struct.pack(order + "IIII", at // 1_000, at % 1_000 * parts, len(frame), len(frame)) for at in TIMES)
    return pcap.header(order, magic) + b"".join(it + frame for it in head)


def try_times(folder):
    """The times of a capture are the same in each of the ways in which they can be written, whatever the file is called."""
    pcap = layout.tool("tools/pcap.py")
    for fine, (magic, parts) in FINE.items():
        for order, name in (("<", "lowest"), (">", "highest")):
            seen = []
            for file in (f"{folder}/times.pcap", f"{folder}/times"):
                with open(file, "wb") as it:
                    it.write(timed(pcap, order, magic, parts))
                picture = ElementTree.fromstring(drawn(file))
                seen.append([it.text for it in picture.iterfind(".//{*}text") if re.fullmatch(r"[\d.]+ s", it.text or "")])
            tell(f"the times of a capture with {fine}, the {name} byte first, are drawn", differs(seen, [TOLD, TOLD]))


def try_all():
    if not has("pictures", "node"):
        return
    with tempfile.TemporaryDirectory() as folder:
        try_kept(folder)
        try_words(folder)
        try_lost(folder)
        try_times(folder)
    try_shown()
    try_maps()
    try_captures()


def try_unpacked(name, root):
    """What an archive has for drawing draws there."""
    if not has("pictures from an archive", "node"):
        return
    status, text = run(f"{root}/tools/picture", "--steps", "examples/ring.internet", cwd=root)
    tell(f"{name}: it draws as it is unpacked", f"    {text}" if status else unlike(text, text_of("examples/ring.svg")))
