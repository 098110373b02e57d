"""Numbers and bytes of the binary format of WebAssembly, for what reads and rewrites modules."""

I32, I64, F32, F64, V128, FUNCREF, EXTERNREF = 0x7F, 0x7E, 0x7D, 0x7C, 0x7B, 0x70, 0x6F
VALUES = {I32, I64, F32, F64, V128, FUNCREF, EXTERNREF}
# Instructions that both code and the places of segments have.
END, I32_CONST, I64_CONST = 0x0B, 0x41, 0x42
# The most that 32 bits hold.
MOST_32 = (1 << 32) - 1


class Unknown(Exception):
    """Something in a module that isn't known here."""


def unsigned(number):
    """A number that isn't negative, in the form of the format."""
    found = bytearray()
    while number > 0x7F:
        found.append(number & 0x7F | 0x80)
        number >>= 7
    return bytes([*found, number])


def signed(number):
    """A number with a sign, in the form of the format."""
    found = bytearray()
    while not -0x40 <= number < 0x40:
        found.append(number & 0x7F | 0x80)
        number >>= 7
    return bytes([*found, number & 0x7F])


def vector(items):
    """Items behind their number."""
    return unsigned(len(items)) + b"".join(items)


class Reader:
    """Bytes that are read one after the other, and what they are part of."""

    def __init__(self, content, what):
        self.content, self.what, self.at = content, what, 0

    def fail(self, why):
        raise Unknown(f"{self.what}, byte {self.at}: {why}")

    def more(self):
        return self.at < len(self.content)

    def take(self, count):
        if self.at + count > len(self.content):
            self.fail("it ends too early")
        self.at += count
        return self.content[self.at - count : self.at]

    def byte(self):
        return self.take(1)[0]

    def group(self):
        """The next number without its sign, and how many bits it has."""
        number = width = 0
        while True:
            byte = self.byte()
            number |= (byte & 0x7F) << width
            width += 7
            if byte < 0x80:
                return number, width

    def unsigned(self):
        return self.group()[0]

    def signed(self):
        number, width = self.group()
        return number - (number >> width - 1 << width)

    def bytes(self):
        """A text, or other bytes behind their number."""
        return self.take(self.unsigned())

    def value(self):
        """A type of values."""
        if (it := self.byte()) not in VALUES:
            self.fail(f"a type of values {it:#04x}")
        return it

    def since(self, start):
        """The bytes that were read from a place on."""
        return self.content[start : self.at]
