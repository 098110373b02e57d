"""What is made of the program's output: JSON, captures, and the commands of a page; and what writes and explains scripts, where it is
unpacked."""
import glob
import json
import os
import re
import subprocess
import tempfile

from trying import PROGRAM, TOP, differs, has, run, tell, text_of

# ---- To other tools ----


def try_json():
    files = sorted(glob.glob(f"{TOP}/examples/*.out") + glob.glob(f"{TOP}/tests/decode/*.out"))
    wrong = []
    for file in files:
        with open(file, "rb") as it:
            text = it.read()
        told = subprocess.run(["tools/json"], cwd=TOP, input=text, stdout=subprocess.PIPE).stdout
        back = subprocess.run(["tools/json", "--back"], cwd=TOP, input=told, stdout=subprocess.PIPE).stdout
        if back != text or not all(isinstance(json.loads(it), dict) for it in told.splitlines()):
            wrong.append(f"    {file}")
    why = "\n".join(wrong) if files else "    there are none"
    tell(f"{len(files)} outputs are told as JSON, and are the same when they are turned back", why)


def try_capture():
    """The packets of the first session, which are routing information and service advertising alone."""
    text = text_of("examples/two-segments.out")
    made = subprocess.run(["tools/to-pcap"], cwd=TOP, input=text.encode(), stdout=subprocess.PIPE).stdout
    count = sum(it.startswith("out ") for it in text.splitlines())
    with tempfile.NamedTemporaryFile(suffix=".pcap") as file:
        file.write(made)
        file.flush()
        shown = run(PROGRAM, "decode", file.name)[1].splitlines()
        kinds = [it for it in shown if re.match("(rip|sap) (request|response|general-query)", it)]
        tell("what a session sends is a capture of routing information and services", differs(len(kinds), count))
        if has("what tshark says of it", "tshark"):
            shown = run("tshark", "-r", file.name, "-Y", "ipxrip || ipxsap", "-T", "fields", "-e", "frame.number")[1]
            tell("tshark shows each of them as RIP or SAP", differs(len(re.findall(r"^\d+$", shown, re.M)), count))


def commands(text):
    """The commands of a document, each with what it is said to print."""
    for line, said in re.findall(r"^    \$ (.*)\n((?:    (?!\$ ).*\n)*)", text, re.M):
        yield line, re.sub("^    ", "", said, flags=re.M)


def try_commands():
    asked = {**os.environ, "PATH": f"{os.path.dirname(PROGRAM)}:{os.environ['PATH']}", "LC_ALL": "C"}
    found = [*commands(text_of("docs/CAPTURES.md"))]
    wrong = [f"    {line}\n{why}" for line, said in found if (why := differs(run("bash", "-c", line, env=asked), (0, said)))]
    tell(f"{len(found)} commands of the page for captures print what it says", "\n".join(wrong) if found else "    there are none")


# ---- Scripts ----


def try_unpacked(name, root):
    """What an archive has for scripts runs there."""
    if not has("what writes and explains scripts, from an archive", "node"):
        return
    said = run(f"{root}/tools/explain", "examples/drops.script", cwd=root)
    last = text_of("examples/drops.out").splitlines()[-1]
    wanted = (2, f"examples/drops.script:57: '2': expected a port of the router, 0 to 1 ({last})\n")
    tell(f"{name}: it explains a script as it is unpacked", differs(said, wanted))
    if not os.path.exists(f"{root}/examples/embed/web/libipxr.wasm"):
        print("left out: packets from words, from an archive (it has no libipxr.wasm)")
        return
    said = [run(f"{root}/tools/packet", act, "examples/services.script", cwd=root) for act in ("fill", "comment")]
    tell(f"{name}: it writes packets as it is unpacked", differs(said, [(0, text_of("examples/services.script"))] * 2))
