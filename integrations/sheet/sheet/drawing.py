"""Pictures of a part and of a program's motions, in plain SVG."""
import math
from html import escape

TOOL_COLOURS = ("#0072b2", "#d55e00", "#009e73", "#aa4499", "#b8860b", "#332288", "#882255", "#44749d")
RAW_COLOUR = "#f4f1e8"
WIDTH = 700


def tool_colour(number):
    """The colour of a tool by its number from 1."""
    return TOOL_COLOURS[(number - 1) % len(TOOL_COLOURS)]


def short(value):
    """A number of pixels."""
    text = f"{value:.2f}".rstrip("0").rstrip(".")
    return "0" if text in ("-0", "") else text


def millimetres(value, digits=4):
    """A length with as many decimals as it needs, of these at most."""
    text = f"{value:.{digits}f}"
    if "." in text:
        text = text.rstrip("0").rstrip(".")
    return "0" if text == "-0" else text


def tick_distance(length, room):
    """A round distance such that marks stand at least 45 pixels apart."""
    wanted = 45 * length / max(room, 1)
    power = 10 ** math.floor(math.log10(max(wanted, 1e-9)))
    return next(factor * power for factor in (1, 2, 5, 10) if factor * power >= wanted)


class View:
    """A picture of the setup from one side: which axes go across and up, from where to where, and how big."""

    margin_left, margin_right, margin_top, margin_bottom = 46, 14, 14, 32

    def __init__(self, across, up, low, high, scale):
        self.across, self.up, self.low, self.high, self.scale = across, up, low, high, scale
        self.width = self.margin_left + self.margin_right + scale * (high[0] - low[0])
        self.height = self.margin_top + self.margin_bottom + scale * (high[1] - low[1])
        self.parts = []

    def x(self, value):
        """The pixel of a coordinate across."""
        return self.margin_left + (value - self.low[0]) * self.scale

    def y(self, value):
        """The pixel of a coordinate up."""
        return self.margin_top + (self.high[1] - value) * self.scale

    def place(self, point):
        """A point of the setup as the text of two pixels."""
        return short(self.x(point["XYZ".index(self.across)])) + " " + short(self.y(point["XYZ".index(self.up)]))

    def add(self, text):
        """Puts more of the picture over what there is."""
        self.parts.append(text)

    def rectangle(self, low, high, attributes):
        """A rectangle between two corners."""
        self.add(
            f'<rect x="{short(self.x(low[0]))}" y="{short(self.y(high[1]))}" width="{short((high[0] - low[0]) * self.scale)}"'
            f' height="{short((high[1] - low[1]) * self.scale)}" {attributes}/>'
        )

    def text(self, x, y, content, attributes=""):
        """A text at a place in pixels."""
        self.add(f'<text x="{short(x)}" y="{short(y)}" {attributes}>{escape(content)}</text>')

    def rulers(self):
        """The two scales with their numbers, and the lines of zero."""
        bottom, left = self.height - self.margin_bottom, self.margin_left
        distance = tick_distance(self.high[0] - self.low[0], self.width - 60)
        self.add('<g class="ruler">')
        self.add(f'<path d="M{left} {short(bottom)}H{short(self.width - self.margin_right)}M{left} {short(bottom)}V{self.margin_top}"/>')
        marks = []
        for count in range(math.ceil(self.low[0] / distance), math.floor(self.high[0] / distance) + 1):
            x = self.x(count * distance)
            marks.append(f"M{short(x)} {short(bottom)}v5")
            self.text(x, bottom + 16, millimetres(count * distance), 'text-anchor="middle"')
        distance = tick_distance(self.high[1] - self.low[1], (self.height - 46) * 1.6)
        for count in range(math.ceil(self.low[1] / distance), math.floor(self.high[1] / distance) + 1):
            y = self.y(count * distance)
            marks.append(f"M{left} {short(y)}h-5")
            self.text(left - 8, y + 4, millimetres(count * distance), 'text-anchor="end"')
        self.add(f'<path d="{"".join(marks)}"/></g>')
        self.text(self.width - self.margin_right, bottom + 29, self.across, 'text-anchor="end" class="axis"')
        self.text(6, self.margin_top + 8, self.up, 'class="axis"')
        if self.low[0] < 0 < self.high[0] or self.low[0] == 0:
            self.add(f'<path class="zero" d="M{short(self.x(0))} {self.margin_top}V{short(bottom)}"/>')
        if self.low[1] < 0 < self.high[1] or self.low[1] == 0:
            self.add(f'<path class="zero" d="M{left} {short(self.y(0))}H{short(self.width - self.margin_right)}"/>')

    def origin(self):
        """The mark of zero, where it is in the picture."""
        if self.low[0] <= 0 <= self.high[0] and self.low[1] <= 0 <= self.high[1]:
            x, y = short(self.x(0)), short(self.y(0))
            self.add(
                f'<g class="origin" transform="translate({x} {y})"><circle r="6"/><path d="M0 0V-6A6 6 0 0 1 6 0ZM0 0V6A6 6 0 0 1 -6 0Z"/></g>'
            )

    def svg(self, name, label):
        """The whole picture."""
        return (
            f'<svg class="view {name}" viewBox="0 0 {short(self.width)} {short(self.height)}" width="{short(self.width)}"'
            f' role="img" aria-label="{escape(label)}" xmlns="http://www.w3.org/2000/svg">' + "".join(self.parts) + "</svg>"
        )


def bounds(low, high, motions, security):
    """The least and greatest coordinates of all that is drawn, with some room."""
    lows, highs = list(low), list(high)
    for motion in motions:
        for point in (motion.start, motion.end):
            for axis, value in enumerate(point):
                if value is not None:
                    lows[axis] = min(lows[axis], value)
                    highs[axis] = max(highs[axis], value)
    if security is not None:
        highs[2] = max(highs[2], security)
    room = 0.03 * max(h - l for l, h in zip(lows, highs))
    return [v - room for v in lows], [v + room for v in highs]


def outline_shape(view, outline, attributes, inner=RAW_COLOUR):
    """The border of an outline as seen from above."""
    if outline.form == "circle":
        x, y = outline.points[0]
        view.add(f'<circle cx="{short(view.x(x))}" cy="{short(view.y(y))}" r="{short(outline.width / 2 * view.scale)}" {attributes}/>')
        return
    way = "M" + "L".join(view.place((x, y, 0)) for x, y in outline.points)
    if outline.form == "polygon":
        view.add(f'<path d="{way}Z" {attributes}/>')
        return
    width = outline.width * view.scale
    round_ends = 'fill="none" stroke-linecap="round" stroke-linejoin="round"'
    if len(set(outline.points)) == 1:
        way += "h0"
    view.add(f'<path d="{way}" {round_ends} class="trail" stroke-width="{short(width + 1)}"/>')
    view.add(f'<path d="{way}" {round_ends} stroke="{inner}" stroke-width="{short(max(width - 1, 0.5))}"/>')


def feature_label(feature):
    """How a feature is called in pictures."""
    return feature.name or f"#{feature.number}"


def draw_features_above(view, features, chosen=None):
    """The outlines of features from above with their names: the large ones first, names shifted where they would meet."""
    taken = []
    for feature in sorted(features, key=lambda f: -area(f.outline.box())):
        label = "chosen" if feature.number == chosen else "outline"
        view.add(f'<g class="feature" data-feature="{feature.number}">')
        outline_shape(view, feature.outline, f'class="{label}"')
        for boss in feature.bosses:
            outline_shape(view, boss, 'class="boss"', "#fff")
        view.add("</g>")
    for feature in sorted(features, key=lambda f: -area(f.outline.box())):
        box = feature.outline.box()
        name = feature_label(feature)
        x, y = view.x(box[0]) + 4, view.y(box[3]) + 13
        length = 6.2 * len(name)
        if length > (box[2] - box[0]) * view.scale:
            x, y = view.x((box[0] + box[2]) / 2) - length / 2, view.y(box[3]) - 4
        while any(abs(y - other_y) < 12 and x < other_x + other_length and other_x < x + length for other_x, other_y, other_length in taken):
            y += 12
        taken.append((x, y, length))
        view.text(x, y, name, 'class="name"')


def area(box):
    """The area of a box."""
    return (box[2] - box[0]) * (box[3] - box[1])


def draw_features_beside(view, features):
    """The depth of features from a side."""
    axis = "XY".index(view.across)
    for feature in sorted(features, key=lambda f: -area(f.outline.box())):
        box = feature.outline.box()
        view.rectangle((box[axis], feature.floor), (box[axis + 2], feature.top), 'class="outline"')


def draw_motions(view, runs, tools):
    """The motions of each step: rapids below, feeds above, and marks where the tool plunges."""
    for index, run in enumerate(runs, 1):
        view.add(f'<g class="step" data-step="{index}" style="--tool:{tool_colour(run.tool)}">')
        is_above = view.up == "Y"
        rapids = "".join(f"M{view.place(m.start)}L{view.place(m.end)}" for m in run.rapids() if m.is_known() and not (is_above and m.is_upright()))
        if rapids:
            view.add(f'<path class="rapid" d="{rapids}"/>')
        way, last, plunges = [], None, []
        for motion in run.feeds():
            if not motion.is_known():
                continue
            if motion.is_plunge():
                plunges.append(motion)
            if is_above and motion.is_upright():
                if not motion.is_plunge():
                    plunges.append(motion)
                continue
            if last != motion.start or not way:
                way.append("M" + view.place(motion.start))
            way.append("L" + view.place(motion.end))
            last = motion.end
        if way:
            identity = f"{view.across}{view.up}{index}"
            if is_above and run.tool in tools:
                width = short(tools[run.tool].diameter * view.scale)
                view.add(f'<g clip-path="url(#raw-box)"><use class="swath" href="#{identity}" stroke-width="{width}"/></g>')
            view.add(f'<g class="feed"><path id="{identity}" d="{"".join(way)}"/></g>')
        for motion in plunges:
            x, y = view.place(motion.end).split()
            kind = "plunge" if motion.is_plunge() else "rise"
            title = f"<title>line {motion.line}: Z{millimetres(motion.end[2])}</title>"
            if is_above:
                view.add(f'<g class="{kind}" transform="translate({x} {y})"><circle r="3.6"/><path d="M-2 0H2M0 -2V2"/>{title}</g>')
            else:
                view.add(f'<path class="{kind}" d="M{x} {y}l-3.2 -6.4h6.4Z">{title}</path>')
        view.add("</g>")


def top_scale(low, high):
    """Pixels for a millimetre of the view from above."""
    return min((WIDTH - 60) / (high[0] - low[0]), 440 / (high[1] - low[1]))


def views(low, high, features, runs, tools, security):
    """The three pictures of a part with the motions of a program: from above, from the front and from the right."""
    motions = [motion for run in runs for motion in run.motions]
    least, greatest = bounds(low, high, motions, security)
    above = View("X", "Y", least[:2], greatest[:2], top_scale(least, greatest))
    above.rectangle(low[:2], high[:2], 'class="raw"')
    draw_features_above(above, features)
    above.rulers()
    corner, other = above.place(low).split(), above.place(high).split()
    size = [short(abs(float(a) - float(b))) for a, b in zip(corner, other)]
    above.add(f'<clipPath id="raw-box"><rect x="{corner[0]}" y="{other[1]}" width="{size[0]}" height="{size[1]}"/></clipPath>')
    draw_motions(above, runs, tools)
    above.origin()
    widths = [greatest[axis] - least[axis] for axis in (0, 1)]
    scale = min((WIDTH - 130) / sum(widths), 260 / (greatest[2] - least[2]))
    found = [above.svg("above", "view from above")]
    for axis, name, label in ((0, "front", "view from the front"), (1, "side", "view from the right")):
        side = View("XY"[axis], "Z", (least[axis], least[2]), (greatest[axis], greatest[2]), scale)
        side.rectangle((low[axis], low[2]), (high[axis], high[2]), 'class="raw"')
        draw_features_beside(side, features)
        side.rulers()
        if security is not None:
            y = side.y(security)
            side.add(f'<path class="security" d="M{side.margin_left} {short(y)}H{short(side.width - side.margin_right)}"/>')
            side.text(side.width - side.margin_right, y - 3, f"security Z{millimetres(security)}", 'text-anchor="end" class="small"')
        draw_motions(side, runs, {})
        side.origin()
        found.append(side.svg(name, label))
    return found


def zero_picture(low, high, security):
    """The raw box seen from the front, the right and above, with the axes at zero and the security height."""
    cosine, sine = math.cos(math.radians(30)), 0.5

    def flat(point):
        x, y, z = point
        return (x * cosine + y * 0.55 * cosine, -z + x * 0.18 - y * 0.55 * sine)

    size = max(h - l for l, h in zip(low, high))
    shaft = 0.24 * size
    ends = [(shaft, 0, 0), (0, shaft, 0), (0, 0, shaft)]
    corners = [(x, y, z) for x in (low[0], high[0]) for y in (low[1], high[1]) for z in (low[2], high[2])]
    plane = [(low[0], low[1]), (high[0], low[1]), (high[0], high[1]), (low[0], high[1])]
    drawn = corners + ends + [(0, 0, 0)] + ([(x, y, security) for x, y in plane] if security is not None else [])
    us, vs = zip(*(flat(p) for p in drawn))
    scale = min(250 / (max(us) - min(us)), 170 / (max(vs) - min(vs)))
    left, top = 22, 18

    def pixel(point):
        u, v = flat(point)
        return f"{short(left + (u - min(us)) * scale)} {short(top + (v - min(vs)) * scale)}"

    def face(points, shade):
        return f'<path class="box" fill="{shade}" d="M{"L".join(pixel(p) for p in points)}Z"/>'

    (x0, y0, z0), (x1, y1, z1) = low, high
    parts = [
        face([(x0, y0, z1), (x1, y0, z1), (x1, y1, z1), (x0, y1, z1)], "#faf7ef"),
        face([(x0, y0, z0), (x1, y0, z0), (x1, y0, z1), (x0, y0, z1)], "#ece6d4"),
        face([(x1, y0, z0), (x1, y1, z0), (x1, y1, z1), (x1, y0, z1)], "#ddd4bb"),
    ]
    hidden = [(x0, y1, z0), (x0, y0, z0)], [(x0, y1, z0), (x1, y1, z0)], [(x0, y1, z0), (x0, y1, z1)]
    parts.append(f'<path class="hidden" d="{"".join("M" + "L".join(pixel(p) for p in edge) for edge in hidden)}"/>')
    if security is not None:
        parts.append(f'<path class="security" d="M{"L".join(pixel((x, y, security)) for x, y in plane)}Z"/>')
    sizes = ((x0 + x1) / 2, y0, z0, x1 - x0, 4, 16), (x1, (y0 + y1) / 2, z0, y1 - y0, 8, 14), (x1, y1, (z0 + z1) / 2, z1 - z0, 6, 4)
    for x, y, z, length, right, down in sizes:
        u, v = (float(value) for value in pixel((x, y, z)).split())
        parts.append(f'<text x="{short(u + right)}" y="{short(v + down)}">{millimetres(length)}</text>')
    u, v = (float(value) for value in pixel(((x0 + x1) / 2, (y0 + y1) / 2, z1)).split())
    parts.append(f'<text x="{short(u)}" y="{short(v + 4)}" text-anchor="middle">raw top Z{millimetres(z1)}</text>')
    for name, end, colour in zip("XYZ", ends, ("#c1121f", "#2a7f2e", "#1d4ed8")):
        u, v = pixel(end).split()
        parts.append(f'<path class="shaft" stroke="{colour}" d="M{pixel((0, 0, 0))}L{u} {v}"/>')
        shift = {"X": (7, 8), "Y": (5, 0), "Z": (-3, -5)}[name]
        parts.append(f'<text x="{short(float(u) + shift[0])}" y="{short(float(v) + shift[1])}" fill="{colour}" class="axis">{name}</text>')
    u, v = pixel((0, 0, 0)).split()
    parts.append(f'<g class="origin" transform="translate({u} {v})"><circle r="6"/><path d="M0 0V-6A6 6 0 0 1 6 0ZM0 0V6A6 6 0 0 1 -6 0Z"/></g>')
    width = left + (max(us) - min(us)) * scale + 34
    height = top + (max(vs) - min(vs)) * scale + 22
    return (
        f'<svg class="zero-picture" viewBox="0 0 {short(width)} {short(height)}" width="{short(width)}" role="img"'
        f' aria-label="the raw box and zero" xmlns="http://www.w3.org/2000/svg">{"".join(parts)}</svg>'
    )


def tool_picture(tool, number):
    """The lower end of a tool."""
    half = 9
    point = 18 * tool.point / tool.diameter
    flank = 34 - point
    if tool.kind == "TWIST_DRILL":
        tip = f"L0 34L{-half} {short(flank)}"
    elif tool.edge_radius:
        r = short(point)
        tip = f"A{r} {r} 0 0 1 {short(half - point)} 34H{short(point - half)}A{r} {r} 0 0 1 {-half} {short(flank)}"
    else:
        tip = f"V34H{-half}"
    return (
        '<svg class="tool-picture" viewBox="-12 0 24 36" width="20" height="30" xmlns="http://www.w3.org/2000/svg">'
        f'<path d="M-6 1H6V10H-6Z" fill="#ddd" stroke="#666"/>'
        f'<path d="M{-half} 10H{half}V{short(flank)}{tip}Z" fill="{tool_colour(number)}" fill-opacity=".25" stroke="{tool_colour(number)}"/></svg>'
    )


def cell_pictures(low, high, features, feature, cell):
    """The part from above and the feature alone, both with a cell marked."""
    least, greatest = bounds(low, high, [], None)
    above = View("X", "Y", least[:2], greatest[:2], min(270 / (greatest[0] - least[0]), 280 / (greatest[1] - least[1])))
    above.rectangle(low[:2], high[:2], 'class="raw"')
    draw_features_above(above, features, feature.number if feature else None)
    above.rulers()
    above.origin()
    _mark(above, cell)
    found = [above.svg("above", "the part from above, with the cell")]
    if feature:
        box = feature.outline.box()
        room = 0.08 * max(box[2] - box[0], box[3] - box[1])
        lows, highs = (min(box[0], cell[0]) - room, min(box[1], cell[1]) - room), (max(box[2], cell[0]) + room, max(box[3], cell[1]) + room)
        near = View("X", "Y", lows, highs, min(290 / (highs[0] - lows[0]), 280 / (highs[1] - lows[1])))
        outline_shape(near, feature.outline, 'class="chosen"')
        for boss in feature.bosses:
            outline_shape(near, boss, 'class="boss"', "#fff")
        near.rulers()
        _mark(near, cell)
        found.append(near.svg("near", "the feature with the cell"))
    return found


def _mark(view, cell):
    x, y = short(view.x(cell[0])), short(view.y(cell[1]))
    view.add(f'<g class="cell" transform="translate({x} {y})"><circle r="9"/><path d="M-14 0H14M0 -14V14"/><rect x="-2.5" y="-2.5" width="5" height="5"/></g>')
