"""What a sheet shows of a part beside its program: names, tools, the raw box, and the outlines of features in the setup."""
import math
from dataclasses import dataclass, field

from .part_text import Instance, PartText, Reference, Typed

OPERATIONS = {
    "PLANE_ROUGH_MILLING": "plane, rough",
    "PLANE_FINISH_MILLING": "plane, finish",
    "BOTTOM_AND_SIDE_ROUGH_MILLING": "bottom and side, rough",
    "BOTTOM_AND_SIDE_FINISH_MILLING": "bottom and side, finish",
    "DRILLING": "drilling",
}
FEATURES = {
    "PLANAR_FACE": "face",
    "CLOSED_POCKET": "pocket",
    "SLOT": "slot",
    "ROUND_HOLE": "hole",
    "BOSS": "boss",
}
IDENTITY = ((1, 0, 0), (0, 1, 0), (0, 0, 1))


class Unknown(Exception):
    """The part does not say this in a way that the rules of jobs take."""


@dataclass
class Frame:
    """A signed rotation and a shift."""

    rows: tuple = IDENTITY
    origin: tuple = (0.0, 0.0, 0.0)

    def apply(self, point):
        """The place of a point of the frame outside of it."""
        return tuple(sum(r * c for r, c in zip(row, point)) + o for row, o in zip(self.rows, self.origin))

    def then(self, inner):
        """The frame that stands in this one."""
        columns = tuple(zip(*inner.rows))
        rows = tuple(tuple(sum(a * b for a, b in zip(row, column)) for column in columns) for row in self.rows)
        return Frame(rows, self.apply(inner.origin))


@dataclass
class Outline:
    """A polygon, a circle (one point) or a trail, in X and Y of the setup; the width is that of a trail or a circle."""

    form: str
    points: list
    width: float = 0.0

    def box(self):
        """The least and greatest X and Y."""
        grown = self.width / 2
        xs, ys = [p[0] for p in self.points], [p[1] for p in self.points]
        return min(xs) - grown, min(ys) - grown, max(xs) + grown, max(ys) + grown

    def wall_distance(self, x, y):
        """How far a point is from the border."""
        if self.form == "circle":
            return abs(math.dist(self.points[0], (x, y)) - self.width / 2)
        ends = list(zip(self.points, self.points[1:]))
        if self.form == "polygon":
            ends.append((self.points[-1], self.points[0]))
        return abs(min(_distance((x, y), a, b) for a, b in ends) - self.width / 2)


@dataclass
class Feature:
    """A feature in the setup."""

    number: int
    name: str
    kind: str
    top: float
    floor: float
    outline: Outline
    corner_radius: float = 0.0
    bosses: list = field(default_factory=list)


@dataclass
class Tool:
    """A tool as the part has it; lengths that are not given are None."""

    number: int
    name: str
    kind: str
    diameter: float
    edge_radius: float
    point: float
    cutting_length: float
    overall_length: float


@dataclass
class Step:
    """A workingstep as the part has it."""

    number: int
    name: str
    feature: int
    operation: str
    operation_name: str
    tool: int


def _distance(point, a, b):
    along = [q - p for p, q in zip(a, b)]
    length = along[0] ** 2 + along[1] ** 2
    share = 0 if length == 0 else sum((p - o) * d for p, o, d in zip(point, a, along)) / length
    share = min(1, max(0, share))
    return math.dist(point, (a[0] + share * along[0], a[1] + share * along[1]))


def _plain(value):
    return value.value if isinstance(value, Typed) else value


class Part:
    """A part's text with what is asked of it by number. What is not there raises Unknown."""

    def __init__(self, content):
        self.text = PartText(content)
        self.instances = self.text.instances

    def _get(self, number, *keywords):
        instance = self.instances.get(number)
        if instance is None or keywords and instance.keyword not in keywords:
            raise Unknown(f"#{number}")
        return instance

    @staticmethod
    def _at(instance: Instance, place):
        if place > len(instance.parameters):
            raise Unknown(instance.keyword)
        return _plain(instance.parameters[place - 1])

    def _named(self, instance, place, *keywords):
        value = self._at(instance, place)
        if not isinstance(value, Reference):
            raise Unknown(instance.keyword)
        return self._get(value, *keywords)

    def _maybe(self, instance, place):
        value = self._at(instance, place)
        return self.instances.get(value) if isinstance(value, Reference) else None

    def _number(self, instance, place):
        value = self._at(instance, place)
        if not isinstance(value, float):
            raise Unknown(instance.keyword)
        return value

    def _maybe_number(self, instance, place):
        value = self._at(instance, place) if place <= len(instance.parameters) else None
        return value if isinstance(value, float) else None

    def _length(self, instance, place):
        named = self._named(instance, place)
        return self._number(named, 2 if named.keyword == "NUMERIC_PARAMETER" else 1)

    def _point(self, instance):
        values = [_plain(v) for v in self._at(instance, 2)]
        if not 2 <= len(values) <= 3 or not all(isinstance(v, float) for v in values):
            raise Unknown(instance.keyword)
        return tuple(values + [0.0] * (3 - len(values)))

    def _axis(self, instance):
        ratios = [round(_plain(v) * 1000) for v in self._at(instance, 2)]
        if len(ratios) != 3 or sum(r != 0 for r in ratios) != 1:
            raise Unknown(instance.keyword)
        return tuple((r > 0) - (r < 0) for r in ratios)

    def _frame(self, placement):
        axis = self._maybe(placement, 3)
        reference = self._maybe(placement, 4)
        z = self._axis(axis) if axis else (0, 0, 1)
        x = self._axis(reference) if reference else (1, 0, 0)
        y = (z[1] * x[2] - z[2] * x[1], z[2] * x[0] - z[0] * x[2], z[0] * x[1] - z[1] * x[0])
        if not any(y):
            raise Unknown("skew")
        return Frame(tuple(zip(x, y, z)), self._point(self._named(placement, 2)))

    def _project(self):
        for instance in self.instances.values():
            if instance.keyword == "PROJECT":
                return instance
        raise Unknown("PROJECT")

    def name(self):
        """The project's name."""
        try:
            return str(self._at(self._project(), 1) or "")
        except Unknown:
            return ""

    def written(self):
        """The date that the file's header gives."""
        values = self.text.header.get("FILE_NAME", [])
        return values[1] if len(values) > 1 and isinstance(values[1], str) else ""

    def name_of(self, number):
        """The first parameter of an instance where it is a text that is not empty, and else ''."""
        instance = self.instances.get(number)
        value = _plain(instance.parameters[0]) if instance and instance.parameters else ""
        return value if type(value) is str else ""

    def _workpiece(self):
        pieces = self._at(self._project(), 3)
        return pieces[0] if pieces else None

    def _setup(self):
        return self._maybe(self._named(self._project(), 2), 4)

    def _workpiece_frame(self):
        setup, piece = self._setup(), self._workpiece()
        for number in self._at(setup, 4) if setup else []:
            placed = self._get(number)
            if self._at(placed, 1) == piece:
                return self._frame(self._named(placed, 2))
        return Frame()

    def _block(self, number):
        instance = self.instances.get(number) if isinstance(number, Reference) else None
        if instance is None:
            return None
        if instance.keyword == "BLOCK":
            return instance
        if instance.keyword == "WORKPIECE":
            bounding = self._at(instance, 6)
            found = self.instances.get(bounding) if isinstance(bounding, Reference) else None
            return found if found and found.keyword == "BLOCK" else None
        return None

    def raw_box(self):
        """The two corners of the workpiece's block in the setup."""
        piece = self._get(self._workpiece(), "WORKPIECE")
        block = self._block(self._at(piece, 4)) or self._block(self._workpiece())
        if block is None:
            raise Unknown("raw box")
        frame = self._workpiece_frame().then(self._frame(self._named(block, 2)))
        one = frame.apply((0, 0, 0))
        other = frame.apply(tuple(self._number(block, place) for place in (3, 4, 5)))
        return tuple(map(min, one, other)), tuple(map(max, one, other))

    def security_height(self):
        """The greatest height of the security planes that the setup and the workingsteps name, or None."""
        setup = self._setup()
        planes = [self._maybe(setup, 3)] if setup else []
        planes += [self._maybe(step, 2) for step in self.instances.values() if step.keyword == "MACHINING_WORKINGSTEP"]
        heights = [self._point(self._named(self._named(plane, 2), 2))[2] for plane in planes if plane]
        return max(heights, default=None)

    def step(self, number):
        """The workingstep of a number."""
        instance = self._get(number, "MACHINING_WORKINGSTEP")
        operation = self._named(instance, 4)
        return Step(
            number,
            self.name_of(number),
            int(self._at(instance, 3)),
            OPERATIONS.get(operation.keyword, operation.keyword.lower().replace("_", " ")),
            str(self._at(operation, 3) or ""),
            int(self._at(operation, 6)),
        )

    def steps_of(self, feature):
        """The workingsteps that name a feature, in the order of the file."""
        found = []
        for number, instance in self.instances.items():
            if instance.keyword == "MACHINING_WORKINGSTEP":
                try:
                    step = self.step(number)
                except (Unknown, TypeError):
                    continue
                if step.feature == feature:
                    found.append(step)
        return found

    def features(self):
        """All features whose outline can be read, in the order of the file."""
        found = []
        for number, instance in self.instances.items():
            if instance.keyword in FEATURES and instance.keyword != "BOSS":
                try:
                    found.append(self.feature(number))
                except (Unknown, TypeError, ValueError):
                    continue
        return found

    def tool(self, number):
        """The tool of a number."""
        instance = self._get(number, "CUTTING_TOOL", "MILLING_CUTTING_TOOL")
        body = self._named(instance, 2)
        dimension = self._named(body, 1)
        diameter = self._number(dimension, 1)
        radius = self._maybe_number(dimension, 5) or 0.0
        is_drill = body.keyword == "TWIST_DRILL"
        return Tool(
            number,
            self.name_of(number),
            body.keyword,
            diameter,
            radius,
            diameter / 2 if is_drill else radius,
            self._maybe_number(dimension, 4),
            self._maybe_number(instance, 4),
        )

    def feature(self, number):
        """The feature of a number, in the setup."""
        instance = self._get(number, *FEATURES)
        frame = self._workpiece_frame().then(self._frame(self._named(instance, 4)))
        top = frame.origin[2]
        depth = self._point(self._named(self._named(self._named(instance, 5), 2), 2))[2]
        bosses, radius = [], 0.0
        if instance.keyword == "CLOSED_POCKET":
            radius = max((self._length(instance, place) for place in (9, 10) if self._maybe(instance, place)), default=0.0)
        outline = getattr(self, "_outline_of_" + FEATURES[instance.keyword])(instance, frame)
        place = {"PLANAR_FACE": 9, "CLOSED_POCKET": 6}.get(instance.keyword)
        for boss in (self._at(instance, place) or []) if place else []:
            island = self._get(boss, "BOSS")
            bosses.append(self._profile(self._named(island, 6), frame.then(self._frame(self._named(island, 4)))))
        return Feature(number, self.name_of(number), FEATURES[instance.keyword], top, top + depth, outline, radius, bosses)

    def _way(self, path):
        """The points of a path in the frame of its feature."""
        if path.keyword == "LINEAR_PATH":
            direction, length = self._axis(self._named(path, 3)), self._length(path, 2)
            return [(0.0, 0.0, 0.0), tuple(length * d for d in direction)]
        return self._polyline(self._named(path, 2))

    def _polyline(self, curve):
        return [self._point(self._get(number)) for number in self._at(curve, 2)]

    @staticmethod
    def _placed(points, frame):
        return [frame.apply(point)[:2] for point in points]

    def _outline_of_face(self, instance, frame):
        end = self._way(self._named(instance, 6))[1]
        width = self._length(self._named(instance, 7), 2)
        across = (0, width, 0) if end[0] else (width, 0, 0)
        corners = [(0, 0, 0), end, tuple(map(sum, zip(end, across))), across]
        return Outline("polygon", self._placed(corners, frame))

    def _outline_of_pocket(self, instance, frame):
        return self._profile(self._named(instance, 11), frame)

    def _outline_of_slot(self, instance, frame):
        width = self._length(self._named(instance, 7), 2)
        return Outline("trail", self._placed(self._way(self._named(instance, 6)), frame), width)

    def _outline_of_hole(self, instance, frame):
        return Outline("circle", [frame.origin[:2]], self._length(instance, 6))

    def _profile(self, profile, frame):
        placement = self._maybe(profile, 1)
        if placement:
            frame = frame.then(self._frame(placement))
        if profile.keyword == "CIRCULAR_CLOSED_PROFILE":
            return Outline("circle", [frame.origin[:2]], self._length(profile, 2))
        if profile.keyword == "RECTANGULAR_CLOSED_PROFILE":
            x, y = self._length(profile, 2) / 2, self._length(profile, 3) / 2
            return Outline("polygon", self._placed([(-x, -y, 0), (x, -y, 0), (x, y, 0), (-x, y, 0)], frame))
        points = self._placed(self._polyline(self._named(profile, 2)), frame)
        if len(points) > 1 and math.dist(points[0], points[-1]) < 0.00005:
            points.pop()
        return Outline("polygon", points)
