"""The code of a function of WebAssembly, written as a function of C.

Locals are variables, and expressions stay expressions: one that stands on the stack is written where it is used, but for one that reads
what changes before, which is worked out into a variable of its own. Blocks are labels.

A frame of the stack is an array of the function, whose address the local has that points to the frame in WebAssembly. The stack's place
itself is in no variable of C: a function may take it once, to make the frame's place of it, which it may set and in the end must set back.
Any other use is refused.
"""
from typing import NamedTuple

import wasm_c
import wasm_flow
import wasm_read as read
from wasm_c import C_TYPES, PREFIX, TRAPS, Value, constant
from wasm_format import END, I64, I64_CONST, Unknown

# The longest expression that stays one.
LONGEST = 160
# Behind any memory: an access with such an offset always traps, in the module.
BEYOND = 1 << 32
ALIGNMENT = 16
STACK, FRAME, FRAMED, LEFT = "the stack's place", "a frame's place", "a local with a frame's place", "the place behind a frame"


class Line(NamedTuple):
    """A line of C: what it assigns to, if to anything, what it reads, and whether it may be left out where nobody reads that."""

    text: str
    target: str = ""
    uses: frozenset = frozenset()
    has_effect: bool = True

    def __str__(self):
        return f"{self.target} = {self.text};" if self.target else self.text


class Block:
    """A block while its code is written."""

    def __init__(self, code, label, height, result, start):
        self.code, self.label, self.height, self.result, self.start = code, label, height, result, start
        # Whether anything goes to its label; whether it has another half, and the end of the first half is reached.
        self.is_aimed_at = self.has_else = self.is_first_left = False


class Body:
    """A function while it is written."""

    def __init__(self, module, number, names):
        self.module, self.names, self.number = module, names, number
        self.function = module.functions[number - len(module.imported)]
        self.kinds = [*self.function.type.takes, *self.function.locals]
        self.lines, self.stack, self.blocks, self.variables = [], [], [], {}
        # What was taken from the stack and isn't written yet.
        self.held = ()
        # Whether the instruction at hand is reached; how deep in blocks it is that are not.
        self.is_reached, self.skipped = True, 0
        self.frame, self.labels = None, 0
        # Which instruction is at hand, and the local that has the stack's place for the moment.
        self.at, self.copy = 0, None

    def fail(self, why):
        raise Unknown(f"function {self.number}: {why}")

    # ---- Values ----

    def push(self, value):
        if len(value.text) > LONGEST:
            value = self.kept(value)
        self.stack.append(value)

    def pop(self):
        value = self.stack.pop()
        if value.shape and value.shape[0] in (STACK, FRAME):
            self.fail(f"{value.shape[0]} is used otherwise than for a frame")
        return value

    def variable(self, kind):
        """A variable that nothing reads which isn't written yet."""
        used = frozenset().union(*(it.uses for it in (*self.stack, *self.held)))
        letter, number = "st"[kind == I64], 0
        while f"{letter}{number}" in used:
            number += 1
        self.variables[f"{letter}{number}"] = kind
        return f"{letter}{number}"

    def named(self, name, kind, **how):
        return Value(name, kind, frozenset([name]), is_atom=True, **how)

    def kept(self, value, has_effect=False):
        """A value that is worked out now, into a variable."""
        if value.shape and value.shape[0] in (STACK, FRAME):
            self.fail(f"{value.shape[0]} isn't used at once")
        name = self.variable(value.kind)
        self.assign(name, value, has_effect)
        return self.named(name, value.kind)

    def assign(self, name, value, has_effect=False):
        self.lines.append(Line(value.typed(), name, value.uses, has_effect))

    def settle(self, is_changed, *held):
        """Works out those values on the stack that read what is about to change, by what was taken from there."""
        self.held = held
        for at, value in enumerate(self.stack):
            if is_changed(value):
                self.stack[at] = self.kept(value)
        self.held = ()

    def settle_memory(self, *held):
        self.settle(lambda value: value.reads, *held)

    # ---- Locals and the stack's place ----

    def set_local(self, number):
        name, value = f"l{number}", self.stack[-1]
        if value.shape[:1] == (FRAME,):
            return self.begin_frame(number, value)
        if value.shape == (STACK,):
            self.stack.pop()
            self.copy = number
            return None
        value = self.pop()
        if value.text == name:
            return None
        before = len(self.lines)
        self.settle(lambda it: name in it.uses, value)
        last = self.lines[-1] if self.lines else None
        if before == len(self.lines) and last and last.target == value.text != name and last.has_effect:
            # (what a call gives goes there at once)
            self.lines[-1] = last._replace(target=name)
        else:
            self.assign(name, value)
        return None

    def begin_frame(self, number, value):
        sets = [it for it in self.function.code if it.code in (read.LOCAL_SET, read.LOCAL_TEE) and it.number == number]
        is_set_back = any(it.code == read.GLOBAL_SET for it in self.function.code)
        if self.frame or self.blocks[1:] or is_set_back and len(sets) != 1:
            self.fail("more than one frame, or one whose place is lost")
        self.stack.pop()
        self.frame = number, value.shape[1]
        self.lines.append(Line(f"{PREFIX}rounded(frame)", f"l{number}", has_effect=False))

    def get_stack(self):
        if sum(it.code == read.GLOBAL_GET for it in self.function.code) != 1 or self.blocks[1:]:
            self.fail("the stack's place is taken more than once, or not at the beginning")
        self.stack.append(Value("", I64, shape=(STACK,)))

    def get_copy(self, number):
        """The stack's place from the local that has it, which is read this once."""
        if wasm_flow.Flow(self.function.code).is_read_behind(self.at, number):
            self.fail("the stack's place is kept")
        self.copy = None
        self.stack.append(Value("", I64, shape=(STACK,)))

    def get_local(self, number):
        if number == self.copy:
            return self.get_copy(number)
        shape = (FRAMED,) if self.frame and number == self.frame[0] else ()
        self.push(self.named(f"l{number}", self.kinds[number], shape=shape))
        return None

    def leave_frame(self):
        shape = self.stack.pop().shape[:1]
        if shape not in ((FRAMED,), (LEFT,)):
            self.fail("the stack's place becomes another one than a frame's")

    def shape_of(self, code, one, other):
        """The shape of a sum or a difference, where it has one."""
        kind, name = wasm_c.OF_TWO[code]
        if kind == I64 and name == "-" and one.shape == (STACK,) and other.number and other.number % ALIGNMENT == 0:
            return FRAME, other.number
        if kind == I64 and name == "+" and one.shape == (FRAMED,) and self.frame and other.number == self.frame[1]:
            return (LEFT,)
        return ()

    # ---- Blocks ----

    def begin(self, instruction):
        taken = [self.pop()] if instruction.code == read.IF else []
        # (inside, where not every way leads through what is written there, nothing below is worked out any more)
        self.settle(lambda value: value.number is None and value.text not in self.variables, *taken)
        self.labels += 1
        result = None
        if instruction.number:
            result = f"r{self.labels}"
            self.variables[result] = instruction.number
        self.blocks.append(Block(instruction.code, f"L{self.labels}", len(self.stack), result, len(self.lines)))
        self.lines += [Line(f"if ({it.condition()}) {{", uses=it.uses) for it in taken]

    def give(self, block):
        """Leaves the result for the end of a block, if it has one."""
        if block.result:
            self.assign(block.result, self.stack[-1])

    def otherwise(self):
        block = self.blocks[-1]
        if self.is_reached:
            self.give(block)
        del self.stack[block.height :]
        self.lines.append(Line("} else {"))
        block.has_else, block.is_first_left, self.is_reached = True, self.is_reached, True

    def end(self):
        block = self.blocks.pop()
        if self.is_reached:
            if not self.blocks:
                return self.go_back()
            self.give(block)
        del self.stack[block.height :]
        if block.code == read.IF:
            self.lines.append(Line("}"))
            self.is_reached = self.is_reached or (block.is_first_left if block.has_else else True)
        if block.code == read.LOOP:
            if block.is_aimed_at:
                self.lines.insert(block.start, Line(f"{block.label}:;"))
        elif block.is_aimed_at and self.blocks:
            self.lines.append(Line(f"{block.label}:;"))
            self.is_reached = True
        if block.result:
            self.stack.append(self.named(block.result, self.variables[block.result]))
        return None

    def go_back(self):
        """The end of the function."""
        gives = self.function.type.gives
        value = self.stack[-1] if gives else None
        self.lines.append(Line(f"return {value.typed()};" if gives else "return;", uses=value.uses if gives else frozenset()))

    def go(self, depth):
        """Goes to the end of a block, or to the beginning of a loop."""
        block = self.blocks[-1 - depth]
        if block is self.blocks[0]:
            return self.go_back()
        if block.code != read.LOOP:
            self.give(block)
        block.is_aimed_at = True
        self.lines.append(Line(f"goto {block.label};"))
        return None

    def go_if(self, depth):
        condition = self.pop()
        start = len(self.lines)
        self.go(depth)
        made = self.lines[start:]
        del self.lines[start:]
        if len(made) == 1:
            self.lines.append(Line(f"if ({condition.condition()}) {made[0]}", uses=condition.uses | made[0].uses))
        else:
            self.lines += [Line(f"if ({condition.condition()}) {{", uses=condition.uses), *made, Line("}")]

    def choose(self, depths):
        """Goes to one of several blocks."""
        value = self.pop()
        self.lines.append(Line(f"switch ({value.typed()}) {{", uses=value.uses))
        for number, depth in enumerate(depths):
            self.lines.append(Line(f"case {number}:" if number < len(depths) - 1 else "default:"))
            self.go(depth)
        self.lines.append(Line("}"))

    # ---- Instructions ----

    def effect(self, text, *values):
        """A statement that changes memory."""
        self.settle_memory(*values)
        self.lines.append(Line(f"{text};", uses=frozenset().union(*(it.uses for it in values))))

    def call(self, number):
        kind = self.module.type_of(number)
        values = [self.pop() for _ in kind.takes][::-1]
        self.settle_memory(*values)
        text = f"{self.names[number]}({', '.join(it.typed() for it in values)})"
        uses = frozenset().union(*(it.uses for it in values))
        if not kind.gives:
            self.lines.append(Line(f"{text};", uses=uses))
            return
        name = self.variable(kind.gives[0])
        self.lines.append(Line(text, name, uses))
        self.stack.append(self.named(name, kind.gives[0]))

    def select(self):
        condition, other, one = self.pop(), self.pop(), self.pop()
        text = f"{condition.condition()} ? {one.operand()} : {other.operand()}"
        self.push(wasm_c.joined(one.kind, text, condition, one, other))

    def two(self, code):
        other, one = self.pop(), self.stack.pop()
        shape = self.shape_of(code, one, other)
        if one.shape[:1] in ((STACK,), (FRAME,)):
            if not shape:
                self.fail(f"{one.shape[0]} is worked with")
            self.stack.append(Value("", I64, shape=shape))
            return
        kind, name = wasm_c.OF_TWO[code]
        value = wasm_c.of_two(kind, name, one, other)
        if name in TRAPS and (not other.number or name == "div_s" and other.number + 1 == 1 << wasm_c.BITS[kind]):
            value = self.kept(value, has_effect=True)
        self.push(value._replace(shape=shape))

    def access(self, instruction):
        is_beyond = not isinstance(instruction.number, read.Place) and instruction.number >= BEYOND
        number = self.pop() if instruction.code in wasm_c.STORES else None
        value = self.pop()
        if is_beyond:
            self.trap()
        elif number:
            made = wasm_c.store(instruction.code, value, instruction.number, number)
            self.effect(made.text, made)
        else:
            self.push(wasm_c.load(instruction.code, value, instruction.number))

    def trap(self):
        self.lines.append(Line(f"{PREFIX}trap();"))
        self.is_reached = False

    def bulk(self, code):
        values = [self.pop() for _ in range(3)][::-1]
        name = "move" if code == read.MEMORY_COPY else "fill"
        self.effect(f"{PREFIX}{name}({', '.join(it.typed() for it in values)})", *values)

    def plain(self, instruction):
        """An instruction that goes nowhere."""
        code, number = instruction
        if code in (read.I32_CONST, I64_CONST):
            self.push(constant(I64 if code == I64_CONST else wasm_c.I32, number))
        elif code == read.LOCAL_GET:
            self.get_local(number)
        elif code in (read.LOCAL_SET, read.LOCAL_TEE):
            self.set_local(number)
            if code == read.LOCAL_TEE:
                self.get_local(number)
        elif code == read.GLOBAL_GET:
            self.get_stack()
        elif code == read.GLOBAL_SET:
            self.leave_frame()
        elif code == read.CALL:
            self.call(number)
        elif code == read.DROP:
            self.stack.pop()
        elif code == read.SELECT:
            self.select()
        elif code in (read.MEMORY_COPY, read.MEMORY_FILL):
            self.bulk(code)
        elif code in wasm_c.LOADS or code in wasm_c.STORES:
            self.access(instruction)
        elif code in wasm_c.OF_TWO:
            self.two(code)
        elif code != read.NOTHING:
            self.push(wasm_c.of_one(code, self.pop()))

    def going(self, instruction):
        """An instruction of blocks; whether it was one."""
        code, number = instruction
        if code in (read.BLOCK, read.LOOP, read.IF):
            self.begin(instruction)
        elif code == read.ELSE:
            self.otherwise()
        elif code == END:
            self.end()
        elif code == read.BRANCH_IF:
            self.go_if(number)
        elif code in (read.BRANCH, read.BRANCH_TABLE, read.RETURN):
            {read.BRANCH: self.go, read.BRANCH_TABLE: self.choose, read.RETURN: lambda _: self.go_back()}[code](number)
            self.is_reached = False
        elif code == read.UNREACHABLE:
            self.trap()
        else:
            return False
        if self.copy is not None:
            self.fail("the stack's place is kept in a block")
        return True

    def is_skipped(self, code):
        """Whether an instruction is behind one that doesn't go on, and before the end of its block."""
        if self.is_reached:
            return False
        if code in (read.BLOCK, read.LOOP, read.IF):
            self.skipped += 1
            return True
        if self.skipped == 0 and code in (read.ELSE, END):
            return False
        self.skipped -= code == END
        return True

    # ---- The whole ----

    def text(self):
        """The function in C."""
        self.blocks.append(Block(read.BLOCK, "", 0, None, 0))
        for self.at, instruction in enumerate(self.function.code):
            if not self.is_skipped(instruction.code) and not self.going(instruction):
                self.plain(instruction)
        lines = needed(self.lines)
        used = frozenset().union(*(it.uses | {it.target} for it in lines))
        return "\n".join([self.head(), "{", *self.declared(used), *map(str, lines), *self.last(lines), "}", ""])

    def head(self):
        kind = self.function.type
        given = ", ".join(f"{C_TYPES[it]} l{at}" for at, it in enumerate(kind.takes)) or "void"
        return f"static {C_TYPES[kind.gives[0]] if kind.gives else 'void'} {self.names[self.number]}({given})"

    def declared(self, used):
        """The variables, those of the module with a 0, as it has them."""
        parameters = len(self.function.type.takes)
        own = [(kind, f"l{at} = 0") for at, kind in enumerate(self.kinds) if at >= parameters and f"l{at}" in used]
        names = sorted(self.variables, key=lambda it: (it[0], int(it[1:])))
        own += [(self.variables[it], it) for it in names if it in used]
        for kind, of_c in C_TYPES.items():
            if said := ", ".join(text for each, text in own if each == kind):
                yield f"{of_c} {said};"
        if self.frame and f"l{self.frame[0]}" in used:
            yield f"uint8_t frame[{self.frame[1]} + {ALIGNMENT - 1}];"
        for at in range(parameters):
            if f"l{at}" not in used:
                yield f"(void)l{at};"

    def last(self, lines):
        """What stands behind a function that doesn't come to its end, for compilers that don't see that."""
        if self.function.type.gives and not str(lines[-1]).startswith("return"):
            yield "return 0;"


def needed(lines):
    """The lines without those that assign what nobody reads."""
    while True:
        used = frozenset().union(*(it.uses for it in lines))
        left = [it for it in lines if not it.target or it.target in used or it.has_effect]
        if len(left) == len(lines):
            return [it if not it.target or it.target in used else Line(f"{it.text};", uses=it.uses) for it in left]
        lines = left
