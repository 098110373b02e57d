"""How the program of another system is called: called.py PROGRAM [RUNNER..]. Words that are no command, files that are there and aren't,
names of other scripts: status, text and standard error are those of the program of this machine. The last line is 'N passed, M failed'."""
import os
import shutil
import subprocess
import sys
import tempfile

TOP = os.path.dirname(os.path.dirname(os.path.dirname(os.path.realpath(__file__))))
NATIVE = f"{TOP}/crates/ipxr/out/ipxr"
CAPTURE = f"{TOP}/examples/nearest-server.pcap"
NAMES = ["plain.pcap", "with blanks and (signs) & more.pcap", "Пакеты.pcap", "パケット.pcap", "ünïcödé-🖧.pcap", "-begins-with-a-hyphen.pcap"]
# Its bytes end a line or a text where a file isn't taken as it is.
LINES, TEXT = "lines", b"# \x1a\r\nnonsense\r\n"
SECONDS = 60


def calls():
    """Each call by its words, in a folder that has the named files."""
    yield from ([], [""], ["nonsense"], ["--help"], ["--version"], ["decode", "--", "--"], ["decode", ""], ["replay", "-"])
    yield from ([verb, "one", "another"] for verb in ("replay", "internet", "decode"))
    yield from ([verb, "there is no such file"] for verb in ("replay", "internet", "decode"))
    yield from (["decode", "--", name] for name in NAMES)
    yield from (["decode", name] for name in NAMES)
    yield ["decode", f"folder/{NAMES[0]}"]
    yield ["decode", CAPTURE]
    yield from ([verb, NAMES[0]] for verb in ("replay", "internet"))
    # (words that some systems take for the names of all files that fit)
    yield from (["decode", word] for word in ("*.pcap", "plain.pca?", "folder/*"))
    yield from ([verb, LINES] for verb in ("replay", "decode"))


def ended(program, words, folder):
    """Status, text and standard error of a call."""
    try:
        run = subprocess.run([*program, *words], cwd=folder, stdin=subprocess.DEVNULL, capture_output=True, timeout=SECONDS, check=False)
    except subprocess.TimeoutExpired:
        return "it doesn't end", b"", b""
    return run.returncode, run.stdout, run.stderr


def main(program, *runner):
    passed = failed = 0
    other = [*runner, os.path.abspath(program)]
    with tempfile.TemporaryDirectory() as folder:
        os.mkdir(f"{folder}/folder")
        for name in [*NAMES, f"folder/{NAMES[0]}"]:
            shutil.copy(CAPTURE, f"{folder}/{name}")
        with open(f"{folder}/{LINES}", "wb") as it:
            it.write(TEXT)
        for words in calls():
            found, wanted = ended(other, words, folder), ended([NATIVE], words, folder)
            passed, failed = passed + (found == wanted), failed + (found != wanted)
            if found != wanted:
                print(f"FAILED  {words}\n    {found}\n    is wanted as {wanted}")
    print(f"{passed} passed, {failed} failed")
    return 1 if failed else 0


if __name__ == "__main__":
    sys.exit(main(*sys.argv[1:]))
