"""Edits that are planted together: the function that an edit stands in, the rounds, and what a check says of a round.

A function is proved from the contracts of what it calls, never from their bodies. So an edit of a body is refused where
its own function has a goal that no longer holds, whatever is planted elsewhere. A function that only waits for a callee
that isn't proved shows nothing; its edit goes to a later round, without that callee.
"""
import glob
import os
import re
from dataclasses import dataclass, field

# A contract that no longer holds, at its place in the code.
UNPROVED = re.compile(r"note: (?:\./)?(src/\S+?):(\d+):\d+: it is not proved that")
# What is said of a word that a proof cites and the text has no longer, and of a check that met a limit of its own and found nothing.
NAMES = "|".join((
    "not in scope", "has no field", r"\(nearest: ", "has no `", "is no name", "is private", "is no constructor", "operand is missing",
    "expected the end",
    "cannot continue",
))
# What only follows from another error.
FOLLOWS = "was not admitted|that depends? on .* which was rejected"
LIMITS = "ran out of|outgrew the memory limit|stopped at the step limit|took more than .* steps"
# Errors in a proof: any, one that refuses what is said, and one about a lost word.
ERROR = r"(?:\./)?(proofs/\S+?)(?:/[^/\s]+)?\.antt:\d+:\d+: error: "
PROOF_ERROR = re.compile(rf"{ERROR}(?!.*({NAMES}|{FOLLOWS}|{LIMITS}))")
NAME_ERROR = re.compile(rf"{ERROR}.*({NAMES})")
# What rt says of an edit that is refused, and of one by which nothing was shown of a contract.
REFUSED = "refused, as it must be"
SHOWS_NOTHING = re.compile(rf"only because a proof file names|only by a limit|{NAMES}|{FOLLOWS}")
VERDICT = re.compile(r"fn (\S+): (.*)")
WAITS = re.compile(r"it (calls|passes) ")
FUNCTION = re.compile(r"( *)(?:pub(?:\([a-z]+\))? )?fn (\w+)")
TYPE = re.compile(r"(?:pub(?:\([a-z]+\))? )?(?:struct|enum) (\w+)")
BLOCK = re.compile(r"impl(?:<.*?>(?= ))? (.*) \{$")
NAMED = re.compile(r"(?:\w+::)*(\w+)(?:<(\w+))?")
LENT = re.compile(r"&(?:'\w+ )?")


@dataclass(frozen=True)
class Function:
    """A function as the check names it, its file, its first and last line, and the line that opens its body."""

    path: str
    file: str
    first: int
    opens: int
    last: int


@dataclass
class Edit:
    """An edit that applies: the lines that it changes, by file and number, and the function that has them all, if one has."""

    file: str
    lines: dict
    function: Function = None
    # The functions for which its own was seen to wait.
    below: set = field(default_factory=set)


def text_of(file):
    with open(file, encoding="utf-8") as it:
        return it.read()


def read_edit(file, folder):
    """The edit in a file, for the crate in the folder, or nothing where it doesn't apply."""
    texts, path, old = {}, "", ""
    for line in text_of(file).split("\n"):
        word, _, text = line.partition(" ")
        if word == "file:":
            path = text.strip()
        elif word == "old:":
            old = text
        elif word == "new:":
            if path not in texts:
                is_inside = path.startswith(("src/", "specs/", "proofs/")) and ".." not in path
                if not is_inside or not os.path.isfile(f"{folder}/{path}"):
                    return None
                texts[path] = text_of(f"{folder}/{path}")
            if not old or texts[path].count(old) != 1:
                return None
            texts[path] = texts[path].replace(old, text)
    lines = {(path, number): new for path, text in texts.items() for number, new in changed_lines(folder, path, text)}
    return Edit(file, lines) if lines else None


def changed_lines(folder, path, text):
    pairs = zip(text_of(f"{folder}/{path}").split("\n"), text.split("\n"))
    return [(number, new) for number, (old, new) in enumerate(pairs, 1) if old != new]


def planted(edits, folder):
    """The texts of the files that the edits change, each by its own lines."""
    texts = {}
    for edit in edits:
        for (path, number), line in edit.lines.items():
            if path not in texts:
                texts[path] = text_of(f"{folder}/{path}").split("\n")
            texts[path][number - 1] = line
    return {path: "\n".join(lines) for path, lines in texts.items()}


def functions(folder, crate):
    """The functions of a crate, as the check names them: a method by the module of its type, wherever it stands."""
    texts = {}
    for file in glob.glob(f"{folder}/src/**/*.rt", recursive=True):
        path = os.path.relpath(file, folder)
        modules = path.removeprefix("src/").removesuffix(".rt").split("/")
        texts[path] = "::".join([crate, *(it for it in modules if it not in ("lib", "main"))]), text_of(file).split("\n")
    homes = {it[1]: module for module, lines in texts.values() for it in map(TYPE.match, lines) if it}
    return [it for path, (module, lines) in texts.items() for it in functions_of(lines, path, module, homes)]


def functions_of(lines, file, module, homes):
    block, found = module, []
    for number, line in enumerate(lines, 1):
        if line == "}":
            block = module
        elif head := BLOCK.match(line):
            block = block_path(head[1], module, homes)
        elif head := FUNCTION.match(line):
            span = body_of(lines, number, head[1])
            if span:
                found.append(Function(f"{block}::{head[2]}", file, head_of(lines, number, head[1]), *span))
    return found


def block_path(head, module, homes):
    """The path of an impl block: its type's, and then its trait with what that is of. That of a lent type is where it stands."""
    trait, _, of = head.rpartition(" for ")
    lent = LENT.match(of)
    name = NAMED.match(of[lent.end() :] if lent else of)[1]
    parts = NAMED.match(trait).groups() if trait else ()
    of = f"{module}::Ref{name}" if lent else f"{homes.get(name, module)}::{name}"
    return of + "".join(it for it in parts if it)


def head_of(lines, first, indent):
    """The first line of what stands above a function without a gap: its attributes, where the check places its contract."""
    while first > 1 and lines[first - 2].startswith(indent) and lines[first - 2] not in ("", f"{indent}}}"):
        first -= 1
    return first


def body_of(lines, first, indent):
    """The lines that open and close the body of a function, as rt fmt lays it out."""
    opens = None
    for number in range(first, len(lines) + 1):
        line = lines[number - 1]
        if not line or line[: len(indent)] != indent or line[len(indent)] == " ":
            continue
        if opens is None and line.endswith("{"):
            opens = number
        elif opens is not None:
            return (opens, number) if line == f"{indent}}}" else None
        elif number > first and not line.startswith(f"{indent})"):
            return None
    return None


def function_at(found, file, number):
    return next((it for it in found if it.file == file and it.first <= number <= it.last), None)


def place(edit, found):
    """Says which function the edit stands in, where one body has all its lines."""
    held = {next((it for it in found if it.file == path and it.opens < number < it.last), None) for path, number in edit.lines}
    edit.function = held.pop() if len(held) == 1 else None
    return edit.function


def next_round(pending, most):
    """Edits that can be tried together: of each function one, and none of a function for which another's was seen to wait."""
    chosen, taken, avoided = [], set(), set()
    for edit in sorted(pending, key=lambda it: -len(it.below)):
        path = edit.function.path
        if len(chosen) < most and path not in taken | avoided and not edit.below & taken:
            chosen.append(edit)
            taken.add(path)
            avoided |= edit.below
    return chosen


def joined(said):
    """The lines of a check, each with the indented ones behind it, which say the rest of an error."""
    return re.sub(r"(?m)(^\S+: error: .*)((?:\n  .*)+)", lambda it: it[1] + it[2].replace("\n", " "), said).split("\n")


def shows(said):
    """Whether what rt says of an edit shows that a contract refuses it."""
    return said.startswith(REFUSED) and not SHOWS_NOTHING.search(said)


class Checked:
    """What a check said of a crate in which edits were planted."""

    def __init__(self, status, said, found):
        self.status, self.lines, self.found = status, joined(said), found
        self.told = {it[1]: it[2] for it in map(VERDICT.match, self.lines) if it}
        self.errors = [it for it in self.lines if re.match(r"\S+:\d+:\d+: error", it)]
        is_ended = any(it.startswith(("logic=not-proved", "only=")) for it in self.lines)
        self.is_read = status == 1 and is_ended and all(it.lstrip("./").startswith("proofs/") for it in self.errors)
        self.broken = {}
        for line in self.lines:
            if (path := self.owner(line)) and self.is_unproved(path):
                self.broken.setdefault(path, line)

    def is_unproved(self, path):
        """Whether the check ends by saying that a function isn't proved; a place that is no function's has no such line."""
        told = [what for name, what in self.told.items() if f"{name}::".startswith(f"{path}::")]
        return path not in {it.path for it in self.found} or any(it.startswith(("not proved", "no proof")) for it in told)

    def owner(self, line):
        """The function whose own goal the line says is broken; another place's name where it is no function's."""
        if at := UNPROVED.match(line):
            it = function_at(self.found, at[1], int(at[2]))
            return it.path if it else f"{at[1]}:{at[2]}"
        return self.owner_of_proof(at[1]) if (at := PROOF_ERROR.match(line)) else ""

    def owner_of_proof(self, folder):
        """The function to which a folder of proofs belongs; the folder itself where it is no function's."""
        # (a folder has a + before a name that would stand for something else)
        return next((it.path for it in self.found if proof_folder(it) == folder.replace("/+", "/")), folder)

    def lost_name(self, path=""):
        """What the check says of a name that proofs cite and the text has no longer: in the proof of this function, or anywhere."""
        found = (it for it in self.lines if (at := NAME_ERROR.match(it)) and path in ("", self.owner_of_proof(at[1])))
        return next(found, "") if self.is_read else ""

    def first_broken(self):
        return next(iter(self.broken.values()), "") if self.is_read else ""

    def strays(self, edits):
        """The places that are broken though no edit was planted there."""
        return self.broken.keys() - {it.function.path for it in edits}

    def waits_for(self, path):
        """The functions, from this one down, for whose proof it waits."""
        below, ahead = set(), [path]
        while ahead:
            told = self.told.get(ahead.pop(), "")
            new = {*re.findall(r"`(\S+?::[^`]*)`", told)} - below if WAITS.search(told) else set()
            below |= new
            ahead += new
        return below - {path}

    def hit_by_errors(self, edits):
        """The edits in whose functions the compiler found errors."""
        places = [re.match(r"(?:\./)?(src/\S+?):(\d+):", it) for it in self.errors]
        owners = {function_at(self.found, it[1], int(it[2])) for it in places if it}
        return [it for it in edits if it.function in owners]


def proof_folder(function):
    return "/".join(["proofs", *function.path.split("::")[1:]])
