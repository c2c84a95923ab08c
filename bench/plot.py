"""Line charts as a PNG file, with nothing but the standard library: no package to install for one picture.

`draw(path, panels)` puts charts side by side. Both axes are logarithmic: sizes are doubled from point to point, and costs span several powers of ten.
"""

import math
import struct
import zlib
from collections import namedtuple

Curve = namedtuple("Curve", "label colour dashed points")      # points: (size, cost)
Panel = namedtuple("Panel", "title curves")

WHITE, BLACK, GREY, PALE = (255, 255, 255), (30, 30, 30), (110, 110, 110), (222, 222, 222)

WIDTH_OF_PANEL, HEIGHT = 440, 400
LEFT, RIGHT, ABOVE, BELOW = 98, 14, 84, 44

# Letters five dots wide and seven high, some with a tail below; a row is a number whose highest of five bits is the left dot.
GLYPHS = {
    "0": (14, 17, 19, 21, 25, 17, 14), "1": (4, 12, 4, 4, 4, 4, 14), "2": (14, 17, 1, 2, 4, 8, 31), "3": (31, 2, 4, 2, 1, 17, 14),
    "4": (2, 6, 10, 18, 31, 2, 2), "5": (31, 16, 30, 1, 1, 17, 14), "6": (6, 8, 16, 30, 17, 17, 14), "7": (31, 1, 2, 4, 8, 8, 8),
    "8": (14, 17, 17, 14, 17, 17, 14), "9": (14, 17, 17, 15, 1, 2, 12), ",": (0, 0, 0, 0, 0, 4, 4, 8), " ": (0,) * 7,
    "a": (0, 0, 14, 1, 15, 17, 15), "b": (16, 16, 22, 25, 17, 17, 30), "c": (0, 0, 14, 16, 16, 17, 14), "d": (1, 1, 13, 19, 17, 17, 15),
    "e": (0, 0, 14, 17, 31, 16, 14), "f": (6, 9, 8, 28, 8, 8, 8), "g": (0, 0, 15, 17, 17, 15, 1, 14), "h": (16, 16, 22, 25, 17, 17, 17),
    "i": (4, 0, 12, 4, 4, 4, 14), "j": (2, 0, 6, 2, 2, 18, 12), "k": (16, 16, 18, 20, 24, 20, 18), "l": (12, 4, 4, 4, 4, 4, 14),
    "m": (0, 0, 26, 21, 21, 17, 17), "n": (0, 0, 22, 25, 17, 17, 17), "o": (0, 0, 14, 17, 17, 17, 14), "p": (0, 0, 30, 17, 17, 30, 16, 16),
    "q": (0, 0, 15, 17, 17, 15, 1, 1), "r": (0, 0, 22, 25, 16, 16, 16), "s": (0, 0, 14, 16, 14, 1, 30), "t": (8, 8, 28, 8, 8, 9, 6),
    "u": (0, 0, 17, 17, 17, 19, 13), "v": (0, 0, 17, 17, 17, 10, 4), "w": (0, 0, 17, 17, 21, 21, 10), "x": (0, 0, 17, 10, 4, 10, 17),
    "y": (0, 0, 17, 17, 17, 15, 1, 14), "z": (0, 0, 31, 2, 4, 8, 31), "C": (14, 17, 16, 16, 16, 17, 14), "M": (17, 27, 21, 21, 17, 17, 17),
}


class Picture:
    def __init__(self, width, height):
        self.width, self.height = width, height
        self.rows = [bytearray(bytes(WHITE) * width) for _ in range(height)]

    def blend(self, x, y, colour, share):
        """Lays a share (0 to 1) of the colour over a dot."""
        if 0 <= x < self.width and 0 <= y < self.height and share > 0:
            share = min(share, 1.0)
            row, at = self.rows[y], 3 * x
            for i in range(3):
                row[at + i] = round(row[at + i] * (1 - share) + colour[i] * share)

    def line(self, start, end, colour, thick=1.0, dashed=False):
        """Walks along the longer direction and shades the dots beside the line by their distance from it."""
        (x0, y0), (x1, y1) = start, end
        length = math.hypot(x1 - x0, y1 - y0)
        steep = abs(y1 - y0) > abs(x1 - x0)
        first, last = sorted((y0, y1) if steep else (x0, x1))
        for main in range(math.floor(first), math.ceil(last) + 1):
            share = ((main - y0) / (y1 - y0) if steep else (main - x0) / (x1 - x0)) if length else 0
            if not 0 <= share <= 1 or dashed and (share * length) % 12 > 7:
                continue
            centre = x0 + share * (x1 - x0) if steep else y0 + share * (y1 - y0)
            slant = (abs(y1 - y0) if steep else abs(x1 - x0)) / length if length else 1
            for side in range(math.floor(centre) - 3, math.floor(centre) + 5):
                cover = thick / 2 + 0.5 - abs(side - centre) * slant
                self.blend(*((side, main) if steep else (main, side)), colour, cover)

    def dot(self, centre, radius, colour, hollow=False):
        reach = math.ceil(radius) + 1
        for x in range(round(centre[0]) - reach, round(centre[0]) + reach + 1):
            for y in range(round(centre[1]) - reach, round(centre[1]) + reach + 1):
                distance = math.hypot(x - centre[0], y - centre[1])
                self.blend(x, y, colour, radius + 0.5 - distance)
                if hollow:
                    self.blend(x, y, WHITE, radius - 1.2 - distance)

    def text(self, x, y, words, colour=BLACK, size=2, align="left"):
        width = 6 * size * len(words)
        x -= {"left": 0, "middle": width // 2, "right": width}[align]
        for letter in words:
            for down, bits in enumerate(GLYPHS[letter]):
                for right in range(5):
                    if bits >> 4 - right & 1:
                        self.square(x + right * size, y + down * size, size, colour)
            x += 6 * size

    def square(self, x, y, size, colour):
        for dy in range(size):
            for dx in range(size):
                self.blend(x + dx, y + dy, colour, 1)

    def png(self):
        def chunk(kind, data):
            return struct.pack(">I", len(data)) + kind + data + struct.pack(">I", zlib.crc32(kind + data))
        header = struct.pack(">IIBBBBB", self.width, self.height, 8, 2, 0, 0, 0)
        pixels = b"".join(b"\0" + bytes(row) for row in self.rows)
        return b"\x89PNG\r\n\x1a\n" + chunk(b"IHDR", header) + chunk(b"IDAT", zlib.compress(pixels, 9)) + chunk(b"IEND", b"")


class Axes:
    """Where a size and a cost stand in a panel."""

    def __init__(self, left, panel, decades):
        sizes = [size for curve in panel.curves for size, _ in curve.points]
        self.sizes = sorted(set(sizes))
        self.left, self.right = left + LEFT, left + WIDTH_OF_PANEL - RIGHT
        self.low, self.high = decades

    def x(self, size):
        first, last = math.log(self.sizes[0]), math.log(self.sizes[-1])
        margin = 14
        return self.left + margin + (self.right - self.left - 2 * margin) * (math.log(size) - first) / (last - first)

    def y(self, cost):
        return HEIGHT - BELOW - (HEIGHT - BELOW - ABOVE) * (math.log10(cost) - self.low) / (self.high - self.low)


def draw_frame(picture, axes, title):
    for decade in range(axes.low, axes.high + 1):
        y = axes.y(10 ** decade)
        picture.line((axes.left, y), (axes.right, y), PALE)
        picture.text(axes.left - 6, round(y) - 7, format(10 ** decade, ","), GREY, align="right")
    for size in axes.sizes:
        picture.line((axes.x(size), HEIGHT - BELOW), (axes.x(size), HEIGHT - BELOW + 5), GREY)
        picture.text(round(axes.x(size)), HEIGHT - BELOW + 12, str(size), GREY, align="middle")
    picture.line((axes.left, HEIGHT - BELOW), (axes.right, HEIGHT - BELOW), GREY)
    picture.text((axes.left + axes.right) // 2, ABOVE - 28, title, BLACK, align="middle")


def draw_curve(picture, axes, curve):
    at = [(axes.x(size), axes.y(cost)) for size, cost in curve.points]
    for start, end in zip(at, at[1:]):
        picture.line(start, end, curve.colour, 2.4, curve.dashed)
    for point in at:
        picture.dot(point, 4, curve.colour, curve.dashed)


def draw_legend(picture, curves):
    x = LEFT
    for curve in curves:
        picture.line((x, 20), (x + 40, 20), curve.colour, 2.4, curve.dashed)
        picture.dot((x + 20, 20), 4, curve.colour, curve.dashed)
        picture.text(x + 50, 13, curve.label)
        x += 50 + 12 * len(curve.label) + 36
    picture.text(x, 13, "instructions of one step", GREY)


def draw(path, panels):
    costs = [cost for panel in panels for curve in panel.curves for _, cost in curve.points]
    decades = (math.floor(math.log10(min(costs))), math.ceil(math.log10(max(costs))))
    picture = Picture(WIDTH_OF_PANEL * len(panels), HEIGHT)
    draw_legend(picture, panels[0].curves)
    for i, panel in enumerate(panels):
        axes = Axes(i * WIDTH_OF_PANEL, panel, decades)
        draw_frame(picture, axes, panel.title)
        for curve in panel.curves:
            draw_curve(picture, axes, curve)
    with open(path, "wb") as file:
        file.write(picture.png())
