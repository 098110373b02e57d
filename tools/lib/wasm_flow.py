"""Where the code of a function of WebAssembly may go."""
import wasm_read as read
from wasm_format import END

OPENS = (read.BLOCK, read.LOOP, read.IF)
LEAVES = (read.RETURN, read.UNREACHABLE)


class Flow:
    """A function's code by the numbers of its instructions: where each block ends and has its other half, and which blocks are around each
    instruction."""

    def __init__(self, code):
        self.code, self.ends, self.halves, self.around = code, {}, {}, []
        opened = []
        for at, it in enumerate(code):
            self.around.append([*opened])
            if it.code in OPENS:
                opened.append(at)
            elif it.code == read.ELSE:
                self.halves[opened[-1]] = at
            elif it.code == END and opened:
                self.ends[opened.pop()] = at

    def aim(self, at, depth):
        """Where a branch goes to."""
        around = self.around[at]
        if depth >= len(around):
            return len(self.code)
        block = around[-1 - depth]
        return block + 1 if self.code[block].code == read.LOOP else self.ends[block] + 1

    def behind(self, at):
        """What may come behind an instruction."""
        code, number = self.code[at]
        if code in LEAVES:
            return []
        if code == read.BRANCH:
            return [self.aim(at, number)]
        if code == read.BRANCH_IF:
            return [at + 1, self.aim(at, number)]
        if code == read.BRANCH_TABLE:
            return [self.aim(at, it) for it in number]
        if code == read.IF:
            return [at + 1, self.halves.get(at, self.ends[at]) + 1]
        if code == read.ELSE:
            return [self.ends[self.around[at][-1]] + 1]
        return [at + 1]

    def is_read_behind(self, at, local):
        """Whether a local may be read behind an instruction before it is set anew."""
        seen, left = set(), self.behind(at)
        while left:
            at = left.pop()
            if at in seen or at >= len(self.code):
                continue
            seen.add(at)
            code, number = self.code[at]
            if code == read.LOCAL_GET and number == local:
                return True
            if code not in (read.LOCAL_SET, read.LOCAL_TEE) or number != local:
                left += self.behind(at)
        return False
