"""Files of lemmas as texts: the lemmas that they have, and one line that could stand for a proof or for a case of it."""
import re
from dataclasses import dataclass, field

ITEM = re.compile(r"( *)(?:pub )?([^\s:(){}◌]+) : ")
IMPORT = re.compile(r"use (\S+)\.\{(.*)\}$")
VARIABLE = re.compile(r"[^\W\d][\w'-]*$")
WORD = re.compile(r"[^\s(){}\[\],;|]+")
# Lower-case words that are constructors or belong to the language, so they are no variables.
NO_VARIABLES = {"true", "false", "zero", "suc", "refl", "tt", "inl", "inr", "tick", "let", "in", "elim", "record", "rw", "at"}
NO_LEMMAS = {"cond", "nat_lt", "nat_le", "nat_eq", "get_or", "flat_map", "flat-map", "common_steps", "nat_tests", "cases_Bool"}
# A conclusion that begins so is data, of which another value is another definition.
DATA = {"ℕ", "Bool", "List", "Option", "Result", "Type", "String", "Char"}
RELATIONS = re.compile("[≡≢≤<⊥]")
OPENS, CLOSES = "([{⟦", ")]}⟧"


@dataclass
class Clause:
    """An equation of a proof: its first line and the one behind its last, and what stands left and right of its equals sign."""

    first: int
    behind: int
    left: str
    body: str

    def lines(self):
        return self.behind - self.first


@dataclass
class Lemma:
    """A lemma: its name, its place, and its equations. The lines from `first` to its first equation say what is proved."""

    name: str
    indent: str
    first: int
    type: str
    clauses: list = field(default_factory=list)

    def behind(self):
        return self.clauses[-1].behind

    def lines(self):
        return self.behind() - self.clauses[0].first

    def has_own(self):
        """Whether the proof has definitions of its own."""
        return any("where" in it.body.split() for it in self.clauses)


def pieces(text, mark=" "):
    """A text cut at each mark that stands in no brackets."""
    found, depth, at = [""], 0, 0
    while at < len(text):
        depth += (text[at] in OPENS) - (text[at] in CLOSES)
        if not depth and text.startswith(mark, at):
            found.append("")
            at += len(mark)
        else:
            found[-1] += text[at]
            at += 1
    return [it for it in map(str.strip, found) if it]


def joined(lines):
    return " ".join(map(str.strip, lines))


def end_of(lines, first, indent):
    """The line behind an item: the next that isn't farther to the right and closes no bracket of it."""
    inside, behind = (indent + " ", *(indent + it for it in CLOSES)), first + 1
    for at in range(first + 1, len(lines)):
        if lines[at] and not lines[at].startswith(inside):
            break
        if lines[at]:
            behind = at + 1
    return behind


def lemmas_of(lines):
    """The lemmas of a file with equations, without those that stand in the proof of another."""
    found = []
    for first, line in enumerate(lines):
        head = ITEM.match(line)
        if not head or found and first < found[-1].behind():
            continue
        indent, name = head.groups()
        at = end_of(lines, first, indent)
        lemma = Lemma(name, indent, first, joined(lines[first:at]).partition(" : ")[2])
        while at < len(lines) and lines[at].startswith(f"{indent}unfolding "):
            at = end_of(lines, at, indent)
        while at < len(lines) and re.match(re.escape(indent + name) + r"(\s|$)", lines[at]):
            behind = end_of(lines, at, indent)
            left, *body = pieces(joined(lines[at:behind]) + " ", " = ")
            lemma.clauses.append(Clause(at, behind, left, " = ".join(body)))
            at = behind
        if lemma.clauses:
            found.append(lemma)
    return found


def imports(lines):
    """The names that a file imports, each with its module."""
    found = {}
    for head in filter(None, map(IMPORT.match, lines)):
        found.update(dict.fromkeys(re.split(r",\s*", head[2]), head[1]))
    return found


def binds(lines, name):
    """Whether a file has this name for something of its own."""
    return name not in imports(lines) and any(re.search(rf"(?<![\w.-]){name}(?![\w-])", it) for it in lines)


def sections(lines):
    """The parameters of a file's sections."""
    return {name for line in lines if line.lstrip().startswith("module ") for name in re.findall(r"[^\s(){}:]+", line)}


def binders(part):
    """The explicit variables of a part of a type, or nothing where it is a hypothesis without a name."""
    groups = pieces(part)
    if not all(re.match(r"[({][^:()]+ : ", it) for it in groups):
        return None
    return [name for it in groups if it[0] == "(" for name in it[1:].partition(" : ")[0].split()]


def is_variable(word):
    return bool(VARIABLE.match(word)) and word not in NO_VARIABLES


def is_data(lemma):
    end = pieces(lemma.type, " → ")[-1]
    return not RELATIONS.search(end) and (end.split()[0] in DATA or not end[0].isupper())


def whole_left(lemma):
    """The left side of one equation in the place of all: variables alone. Nothing where the type doesn't show them."""
    lefts = [pieces(it.left)[1:] for it in lemma.clauses]
    if len(lefts) == 1 and all(map(is_variable, lefts[0])):
        return lemma.clauses[0].left
    if any("{" in it for it in map("".join, lefts)) or "let " in lemma.type:
        return ""
    names = []
    for part in pieces(lemma.type, " → ")[:-1]:
        bound = binders(part)
        names += [None] if bound is None else bound
    if not names or any(len(it) > len(names) for it in lefts):
        return ""
    for at, name in enumerate(names):
        said = [it[at] for it in lefts if at < len(it) and is_variable(it[at])]
        taken = {*names} - {None}
        free = [it for it in said if it not in taken] + ["given", *(f"given_{number}" for number in range(2, 20))]
        names[at] = name if name and is_variable(name) else next(it for it in free if it not in taken)
    return " ".join([lemma.name, *names]) if len({*names}) == len(names) else ""


def cited(lemma, body, known):
    """The lemmas that a proof names, of those that are known, without itself."""
    words = [re.sub(r"(\.\d+)+$", "", it) for it in WORD.findall(body)]
    return [it for it in dict.fromkeys(words) if it in known and it != lemma.name]


def recursive_calls(lemma, clause, scope):
    """The calls of the lemma itself in an equation of its proof, whose arguments stand in its left side."""
    arity, seen = len(pieces(clause.left)) - 1, {*WORD.findall(clause.left), *scope}
    found = []
    for at in re.finditer(rf"(?<![\w-]){re.escape(lemma.name)} ", clause.body):
        depth, end = 0, at.end()
        while end < len(clause.body) and (depth or clause.body[end] not in CLOSES + ",;"):
            depth += (clause.body[end] in OPENS) - (clause.body[end] in CLOSES)
            end += 1
        words = pieces(clause.body[at.start() : end])[: arity + 1]
        names = [it for word in words[1:] for it in WORD.findall(word)]
        if len(words) == arity + 1 and all(it in seen or it.split(".")[0] in seen or it.isdigit() for it in names):
            found.append(" ".join(words))
    return list(dict.fromkeys(found))


def known_lemmas(lines):
    """The names of a file by which it can cite lemmas: those that it imports from proofs, and its own."""
    proofs = {name: module for name, module in imports(lines).items() if ".proofs." in module and "◌" not in name}
    named = {name for name, module in proofs.items() if not module.endswith(".Common") or re.search("[-_]", name)}
    return named - NO_LEMMAS
