"""Functions of WebAssembly that are made up at random, the same in each run: of all instructions that the translator knows, in any order
in which an engine takes them. Each has a frame of its own, and ends: loops count, and only functions before it are called.
"""
import random

SEED, FUNCTIONS, FRAME, DEPTH = 5, 160, 64, 3
# How many are called by others; these call none, so that nothing takes long.
CALLED = 12
# The frame's place; numbers of each type; and how often the loops at hand still turn.
PLACE, NUMBERS, TURNS = 2, {"i64": [0, 3, 4, 5], "i32": [1, 6, 7, 8]}, [9, 10, 11]
LOCALS = ["i64", "i64", "i64", "i64", "i32", "i32", "i32", "i32", "i32", "i32"]
COMPARED = ["eq", "ne", "lt_s", "lt_u", "gt_s", "gt_u", "le_s", "le_u", "ge_s", "ge_u"]
WORKED = ["add", "sub", "mul", "and", "or", "xor", "shl", "shr_s", "shr_u", "rotl", "rotr"]
DIVIDED = ["div_s", "div_u", "rem_s", "rem_u"]
LOADED = {"i32": ["load", "load8_s", "load8_u", "load16_s", "load16_u"], "i64": ["load", "load8_u", "load16_s", "load32_s", "load32_u"]}
STORED = {"i32": ["store", "store8", "store16"], "i64": ["store", "store8", "store16", "store32"]}
# What leaves the frame.
LEAVE = [f"local.get {PLACE}", f"i64.const {FRAME}", "i64.add", "global.set __stack_pointer"]
BITS = {"i32": 32, "i64": 64}


class Maker:
    """A function while it is made up."""

    def __init__(self, chance, callable_):
        self.chance, self.callable = chance, callable_
        # The blocks at hand, by what a branch to each takes, the innermost last; and how many loops turn.
        self.blocks, self.loops = [], 0

    def number(self, kind):
        value = self.chance.choice([0, 1, 2, 5, 255, 1 << 31, (1 << 31) - 1, -1, -8, self.chance.getrandbits(BITS[kind])])
        half = 1 << BITS[kind] - 1
        return [f"{kind}.const {(value + half) % (2 * half) - half}"]

    def local(self, kind):
        return [f"local.get {self.chance.choice(NUMBERS[kind])}"]

    def value(self, kind, depth=DEPTH):
        """Code that leaves a number."""
        if depth == 0:
            return self.chance.choice([self.number, self.local, self.local])(kind)
        made = [self.two, self.two, self.compared, self.one, self.loaded, self.teed, self.selected, self.blocked, self.chosen, self.called,
                self.kept]
        return self.chance.choice(made)(kind, depth - 1) if self.chance.random() < 0.9 else self.local(kind)

    def two(self, kind, depth):
        name = self.chance.choice(WORKED * 4 + DIVIDED)
        return [*self.value(kind, depth), *self.value(kind, depth), f"{kind}.{name}"]

    def compared(self, kind, depth):
        """A comparison; as a number of 64 bits where one is wanted."""
        of = self.chance.choice([*BITS])
        made = [*self.value(of, depth), *self.value(of, depth), f"{of}.{self.chance.choice(COMPARED)}"]
        return made + (["i64.extend_i32_u"] if kind == "i64" else [])

    def one(self, kind, depth):
        names = {"i32": ["i32.clz", "i32.ctz", "i32.popcnt", "i32.eqz", "i32.extend8_s", "i32.extend16_s"],
                 "i64": ["i64.clz", "i64.ctz", "i64.popcnt", "i64.extend8_s", "i64.extend16_s", "i64.extend32_s"]}
        crossing = {"i32": ("i64", ["i32.wrap_i64", "i64.eqz"]), "i64": ("i32", ["i64.extend_i32_s", "i64.extend_i32_u"])}
        if self.chance.random() < 0.5:
            return [*self.value(kind, depth), self.chance.choice(names[kind])]
        of, names = crossing[kind]
        return [*self.value(of, depth), self.chance.choice(names)]

    def access(self):
        """The place of an access to the frame: the frame's, and an offset."""
        return self.chance.randrange(FRAME - 8)

    def loaded(self, kind, depth):
        return [f"local.get {PLACE}", f"{kind}.{self.chance.choice(LOADED[kind])} {self.access()}:p2align=0"]

    def teed(self, kind, depth):
        return [*self.value(kind, depth), f"local.tee {self.chance.choice(NUMBERS[kind])}"]

    def selected(self, kind, depth):
        return [*self.value(kind, depth), *self.value(kind, depth), *self.value("i32", depth), f"{kind}.select"]

    def blocked(self, kind, depth):
        """A block that leaves a number."""
        self.blocks.append(kind)
        made = [f"block {kind}", *self.statements(depth), *self.value(kind, depth), *self.value("i32", depth), "br_if 0", "drop",
                *self.statements(depth), *self.value(kind, depth), "end_block"]
        self.blocks.pop()
        return made

    def chosen(self, kind, depth):
        condition = self.value("i32", depth)
        self.blocks.append(kind)
        made = [*condition, f"if {kind}", *self.statements(depth), *self.value(kind, depth), "else", *self.value(kind, depth), "end_if"]
        self.blocks.pop()
        return made

    def kept(self, kind, depth):
        """A number that stays on the stack while what it was read from changes."""
        return [*self.value(kind, depth), *self.chance.choice([self.set, self.store, self.filled, self.poked, self.dropped])(depth)]

    def called(self, kind, depth):
        if not self.callable or self.loops:
            return self.loaded(kind, depth)
        made = [*self.value("i64", depth), *self.value("i32", depth), f"call {self.chance.choice(self.callable)}"]
        return made + (["i32.wrap_i64"] if kind == "i32" else [])

    # ---- Statements ----

    def statements(self, depth):
        if depth == 0:
            return []
        made = [self.set, self.set, self.store, self.store, self.turned, self.left, self.either, self.switched, self.filled, self.dropped]
        return [line for _ in range(self.chance.randrange(3)) for line in self.chance.choice(made)(depth - 1)]

    def set(self, depth):
        kind = self.chance.choice([*BITS])
        return [*self.value(kind, depth), f"local.set {self.chance.choice(NUMBERS[kind])}"]

    def store(self, depth):
        kind = self.chance.choice([*BITS])
        return [f"local.get {PLACE}", *self.value(kind, depth), f"{kind}.{self.chance.choice(STORED[kind])} {self.access()}:p2align=0"]

    def turned(self, depth):
        """A loop that turns a few times."""
        if self.loops == len(TURNS):
            return self.set(depth)
        turns = TURNS[self.loops]
        self.loops += 1
        self.blocks.append("")
        made = [f"i32.const {self.chance.randrange(1, 5)}", f"local.set {turns}", "loop", *self.aimed(depth)]
        made += [f"local.get {turns}", "i32.const 1", "i32.sub", f"local.tee {turns}", "br_if 0", "end_loop"]
        self.blocks.pop()
        self.loops -= 1
        return made

    def aimed(self, depth):
        """Statements in which nothing goes to the innermost block, which would turn without counting."""
        self.blocks[-1] = None
        made = self.statements(depth)
        self.blocks[-1] = ""
        return made

    def depths(self):
        """The blocks that a branch without a number may go to, by their depth."""
        return [at for at, it in enumerate(reversed(self.blocks)) if it == ""]

    def left(self, depth):
        """A block that is left early, perhaps with others around it."""
        self.blocks.append("")
        aims = self.depths()
        inner = [*self.value("i32", depth), f"br_if {self.chance.choice(aims)}"] if self.chance.random() < 0.8 else []
        last = [f"br {self.chance.choice(aims)}"] if self.chance.random() < 0.3 else []
        made = ["block", *self.statements(depth), *inner, *self.statements(depth), *last, "end_block"]
        self.blocks.pop()
        return made

    def either(self, depth):
        condition = self.value("i32", depth)
        self.blocks.append("")
        other = ["else", *self.statements(depth)] if self.chance.random() < 0.5 else []
        last = [*self.value("i64", depth), *LEAVE, "return"] if self.chance.random() < 0.2 else []
        made = [*condition, "if", *self.statements(depth), *last, *other, "end_if"]
        self.blocks.pop()
        return made

    def switched(self, depth):
        """A choice between three ends."""
        self.blocks += ["", "", ""]
        made = ["block"] * 3 + [*self.value("i32", depth), "i32.const 3", "i32.and", "br_table {0, 1, 2, 1}"]
        for last in (["br 1"], [], []):
            self.blocks.pop()
            made += ["end_block", *(self.statements(depth) if self.blocks[-1:] == [""] else []), *last]
        return made

    def filled(self, depth):
        to, of = self.chance.randrange(FRAME // 2), self.chance.randrange(FRAME // 2)
        begin = [f"local.get {PLACE}", f"i64.const {to}", "i64.add"]
        if self.chance.random() < 0.5:
            return [*begin, *self.value("i32", depth), f"i64.const {self.chance.randrange(FRAME // 2)}", "memory.fill 0"]
        count = self.chance.randrange(FRAME // 2)
        return [*begin, f"local.get {PLACE}", f"i64.const {of}", "i64.add", f"i64.const {count}", "memory.copy 0, 0"]

    def poked(self, depth):
        """A call that writes into the frame."""
        return [f"local.get {PLACE}", f"i64.const {self.access()}", "i64.add", *self.value("i64", depth), "call poke"]

    def dropped(self, depth):
        """A number that nobody reads, which may be one that can't be worked out."""
        if self.chance.random() < 0.1:
            return [*self.value("i32", depth), *self.value("i32", depth), f"i32.{self.chance.choice(DIVIDED)}", "drop"]
        return [*self.value("i64", depth), "drop"]

    # ---- The whole ----

    def code(self):
        begin = ["global.get __stack_pointer", f"i64.const {FRAME}", "i64.sub", f"local.tee {PLACE}", "global.set __stack_pointer",
                 f"local.get {PLACE}", "i32.const 0", f"i64.const {FRAME}", "memory.fill 0"]
        body = [line for _ in range(3) for line in self.statements(DEPTH)]
        read = [line for at in range(0, FRAME, 8) for line in (f"local.get {PLACE}", f"i64.load {at}", "i64.xor")]
        numbers = [line for it in NUMBERS["i64"][1:] for line in (f"local.get {it}", "i64.add", "i64.const 3", "i64.mul")]
        last = [f"local.get {NUMBERS['i32'][0]}", "i64.extend_i32_u", "i64.sub"]
        return [*begin, *body, *self.value("i64"), *read, *numbers, *last, *LEAVE]


# What writes where it is told.
POKE = """\
poke:
.functype poke (i64, i64) -> ()
local.get 0
local.get 1
i64.store 0:p2align=0
end_function
"""


def programs():
    """Each function: its name, what it takes and gives, and its text."""
    chance, made = random.Random(SEED), []
    for at in range(FUNCTIONS):
        name = f"program_{at}"
        kind = f".functype {name} (i64, i32) -> (i64)"
        code = Maker(chance, made[:CALLED] if at >= CALLED else []).code()
        head = [f".globl {name}", kind, f"{name}:", kind, f".local {', '.join(LOCALS)}"]
        yield name, ["i64", "i32"], "i64", "\n".join([*head, *code, "end_function", ""])
        made.append(name)
