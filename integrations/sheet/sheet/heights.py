"""The height of the stock after the feeds of a program, as a shaded picture."""
import base64
import math
import struct
import zlib

import numpy

GREATEST_WIDTH = 640
GREATEST_NODES = 400_000
LOW_COLOUR = numpy.array((38, 84, 124.0))
HIGH_COLOUR = numpy.array((236, 226, 198.0))
OPEN_COLOUR = numpy.array((255, 255, 255.0))


class Stock:
    """Heights over the middles of the squares of a grid on the raw box; the first row is the front one."""

    def __init__(self, low, high):
        size = [high[axis] - low[axis] for axis in (0, 1)]
        self.pitch = max(max(size) / GREATEST_WIDTH, math.sqrt(size[0] * size[1] / GREATEST_NODES))
        self.low, self.high = low, high
        across, up = (max(1, math.ceil(length / self.pitch - 1e-9)) for length in size)
        self.xs = low[0] + (numpy.arange(across) + 0.5) * self.pitch
        self.ys = low[1] + (numpy.arange(up) + 0.5) * self.pitch
        self.heights = numpy.full((up, across), float(high[2]))

    def _part(self, start, end, radius):
        """The slices of rows and columns that a disc on its way from start to end may touch."""
        parts = []
        for axis, places in ((1, self.ys), (0, self.xs)):
            low = min(start[axis], end[axis]) - radius
            high = max(start[axis], end[axis]) + radius
            parts.append(slice(*numpy.searchsorted(places, (low, high))))
        return tuple(parts)

    def cut(self, start, end, tool):
        """Takes away what a tool takes on a straight way."""
        radius = tool.diameter / 2
        rows, columns = self._part(start, end, radius)
        piece = self.heights[rows, columns]
        if piece.size == 0:
            return
        dx, dy = self.xs[columns][None, :] - start[0], self.ys[rows][:, None] - start[1]
        way = (end[0] - start[0], end[1] - start[1])
        squared = way[0] ** 2 + way[1] ** 2
        along = (dx * way[0] + dy * way[1]) / squared if squared else numpy.zeros(numpy.broadcast(dx, dy).shape)
        nearest = numpy.clip(along, 0, 1)
        distance = numpy.hypot(dx - nearest * way[0], dy - nearest * way[1])
        if squared and start[2] != end[2]:
            off = numpy.abs(dx * way[1] - dy * way[0]) / math.sqrt(squared)
            reach = numpy.sqrt(numpy.maximum(radius**2 - off**2, 0)) / math.sqrt(squared)
            down = 1 if end[2] < start[2] else -1
            if tool.point == 0:
                nearest = numpy.clip(along + down * reach, 0, 1)
            tip = start[2] + nearest * (end[2] - start[2])
        else:
            tip = min(start[2], end[2])
        numpy.minimum(piece, numpy.where(distance <= radius, tip + form(tool, distance), numpy.inf), out=piece)

    def finish(self):
        """Nothing is lower than the underside of the raw box."""
        numpy.maximum(self.heights, self.low[2], out=self.heights)

    def removed(self):
        """The volume that is gone, in cubic millimetres, by the squares of this grid."""
        return float((self.high[2] - self.heights).sum()) * self.pitch**2

    def levels(self, count=8):
        """The heights that take the most of the area, the highest first: (height, share of the area)."""
        values, numbers = numpy.unique(numpy.round(self.heights, 3), return_counts=True)
        most = sorted(zip(numbers, values), reverse=True)[:count]
        whole = self.heights.size
        return sorted(((float(v), n / whole) for n, v in most if n / whole >= 0.002), reverse=True)

    def colour(self, height):
        """The colour of a flat place of a height."""
        if height <= self.low[2]:
            return "#%02x%02x%02x" % tuple(int(c) for c in OPEN_COLOUR)
        share = (height - self.low[2]) / (self.high[2] - self.low[2])
        return "#%02x%02x%02x" % tuple(int(c) for c in LOW_COLOUR + share * (HIGH_COLOUR - LOW_COLOUR))

    def picture(self):
        """The picture, seen from above with the light from the upper left, as a data URL of a PNG."""
        share = (self.heights - self.low[2]) / (self.high[2] - self.low[2])
        padded = numpy.pad(self.heights, 1, mode="edge")
        slope_x = (padded[1:-1, 2:] - padded[1:-1, :-2]) / (2 * self.pitch)
        slope_y = (padded[2:, 1:-1] - padded[:-2, 1:-1]) / (2 * self.pitch)
        light = (0.8 - 0.45 * slope_x + 0.45 * slope_y) / numpy.sqrt(1 + slope_x**2 + slope_y**2)
        light = numpy.clip(0.35 + 0.8125 * light, 0.3, 1.15)[..., None]
        colours = (LOW_COLOUR + share[..., None] * (HIGH_COLOUR - LOW_COLOUR)) * light
        colours = numpy.where(share[..., None] <= 0, OPEN_COLOUR, colours)
        pixels = numpy.clip(colours, 0, 255).astype(numpy.uint8)[::-1]
        return "data:image/png;base64," + base64.b64encode(png(pixels)).decode("ascii")


def form(tool, distance):
    """How much higher than its tip a tool is at a distance from its axis."""
    if tool.kind == "TWIST_DRILL":
        return distance * (2 * tool.point / tool.diameter)
    if tool.edge_radius == 0:
        return 0.0
    beyond = numpy.clip(distance - (tool.diameter / 2 - tool.edge_radius), 0, tool.edge_radius)
    return tool.edge_radius - numpy.sqrt(tool.edge_radius**2 - beyond**2)


def png(pixels):
    """The bytes of a PNG file with these rows of red, green and blue."""
    height, width, _ = pixels.shape
    rows = numpy.zeros((height, 1 + 3 * width), numpy.uint8)
    rows[:, 1:] = pixels.reshape(height, -1)

    def chunk(kind, content):
        return struct.pack(">I", len(content)) + kind + content + struct.pack(">I", zlib.crc32(kind + content))

    head = struct.pack(">IIBBBBB", width, height, 8, 2, 0, 0, 0)
    return b"\x89PNG\r\n\x1a\n" + chunk(b"IHDR", head) + chunk(b"IDAT", zlib.compress(rows.tobytes(), 9)) + chunk(b"IEND", b"")
