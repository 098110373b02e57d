"""What Windows shows of a program before it runs: its picture, which is drawn here, and its version. The compiler's windres makes an object of
both, at the top of the repository."""
import math
import struct

from telling import succeeds

WINDRES = "x86_64-w64-mingw32-windres"
SIZES = (16, 24, 32, 48, 64)  # of the picture, in pixels
FINE = 4  # points of a pixel's side that are looked at
# Colours: blue, green, red.
GROUND, LINE, PLACE, MIDDLE = (96, 56, 24), (208, 176, 136), (255, 244, 232), (64, 184, 255)
# In a square of side 1: how far the corners are round, half of a line's breadth, half of a place's, half of the router's, and how far a place
# is from it.
ROUND, BREADTH, OF_PLACE, OF_ROUTER, AWAY = 0.18, 0.035, 0.10, 0.15, 0.29

RESOURCE = """\
1 ICON "{icon}"
1 VERSIONINFO
FILEVERSION {numbers}
PRODUCTVERSION {numbers}
FILEOS 0x40004
FILETYPE 1
BEGIN
  BLOCK "StringFileInfo"
  BEGIN
    BLOCK "040904B0"
    BEGIN
      VALUE "FileDescription", "{what}"
      VALUE "FileVersion", "{version}"
      VALUE "InternalName", "{name}"
      VALUE "OriginalFilename", "{name}.exe"
      VALUE "ProductName", "ipxr"
      VALUE "ProductVersion", "{version}"
    END
  END
  BLOCK "VarFileInfo"
  BEGIN
    VALUE "Translation", 0x409, 1200
  END
END
"""


def is_ground(x, y):
    """Whether a point is in the square with round corners, whose middle is 0."""
    over = [max(0, abs(it) - (0.5 - ROUND)) for it in (x, y)]
    return math.hypot(*over) <= ROUND


def colour(x, y):
    """The colour of a point; None where there is nothing. A router is in the middle, and four places are around it, each with a line to it."""
    if not is_ground(x, y):
        return None
    across, along = sorted((abs(x), abs(y)))
    if math.hypot(x, y) <= OF_ROUTER:
        return MIDDLE
    if math.hypot(across, along - AWAY) <= OF_PLACE:
        return PLACE
    return LINE if across <= BREADTH and along <= AWAY else GROUND


def pixel(column, row, size):
    """A pixel's bytes: the mean of what its points have, and how many of these there are."""
    steps = [(k + 0.5) / FINE for k in range(FINE)]
    points = [colour((column + x) / size - 0.5, (row + y) / size - 0.5) for x in steps for y in steps]
    seen = [it for it in points if it]
    mean = [sum(it[k] for it in seen) // len(seen) if seen else 0 for k in range(3)]
    return bytes([*mean, 255 * len(seen) // len(points)])


def bitmap(size):
    """The picture in a size: its rows from below, and behind them a mask of nothing, which older systems look at."""
    rows = b"".join(pixel(column, row, size) for row in reversed(range(size)) for column in range(size))
    mask = bytes((size + 31) // 32 * 4 * size)
    return struct.pack("<IiiHHIIiiII", 40, size, 2 * size, 1, 32, 0, len(rows) + len(mask), 0, 0, 0, 0) + rows + mask


def icon():
    """The file of the picture in all sizes."""
    pictures = [bitmap(it) for it in SIZES]
    at = 6 + 16 * len(SIZES)
    entries = b""
    for size, whole in zip(SIZES, pictures):
        entries += struct.pack("<BBBBHHII", size, size, 0, 0, 1, 32, len(whole), at)
        at += len(whole)
    return struct.pack("<HHH", 0, 1, len(SIZES)) + entries + b"".join(pictures)


def builds(folder, name, what):
    """The object of a program's picture and version in a folder; whether it is built."""
    with open("VERSION", encoding="ascii") as file:
        version = file.read().strip()
    numbers = ", ".join([*version.split("."), "0"])
    with open(f"{folder}/{name}.ico", "wb") as file:
        file.write(icon())
    with open(f"{folder}/{name}.rc", "w", encoding="ascii") as file:
        file.write(RESOURCE.format(icon=f"{folder}/{name}.ico", numbers=numbers, version=version, name=name, what=what))
    return succeeds(WINDRES, f"{folder}/{name}.rc", f"{folder}/{name}.res.o")
