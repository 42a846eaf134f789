"""What a refusal means, where its place is in the part, and what to do: the table of messages of docs/USE.md."""
import re
from dataclasses import dataclass

# Each line: the message after 'stepmill: ', its cause, what to do.
MESSAGES = (
    (r"too long", "The part, or the program to be written, has more than 67,108,864 bytes.", "Leave out of the file what the project does not use; take a greater --cell, or split the workplan."),
    (r"part: bad byte at (?P<at>\d+)", "A byte that begins nothing that is allowed in a part file.", "Look at the place; export the part again."),
    (r"part: open string at (?P<at>\d+)", "The string that begins here is not closed by an apostrophe.", "The file may be cut off: export the part again."),
    (r"part: open comment at (?P<at>\d+)", "The comment that begins here is not closed by */.", "The file may be cut off: export the part again."),
    (r"part: bad number at (?P<at>\d+)", "A sign without a digit, a number without a digit after its E, or a # without a number from 1 to 4,294,967,295.", "Look at the place."),
    (r"part: bad enumeration at (?P<at>\d+)", "A point that is not followed by a name and a point.", "Look at the place."),
    (r"part: unexpected at (?P<at>\d+)", "What stands here is well formed and does not belong here. At the end of the file something is missing.", "Look at the place; the file may be cut off."),
    (r"part: #(?P<n>\d+) twice at (?P<at>\d+)", "The instance that begins here has the number of an earlier one.", "Give each instance a number of its own."),
    (r"part: too deep at (?P<at>\d+)", "The parenthesis here opens a 65th list within others.", "Nest fewer lists."),
    (r"part: no project", "No instance is a PROJECT.", "Export the part again, with its workplan."),
    (r"part: #(?P<n>\d+) is a second project", "Two instances are a PROJECT.", "Leave one of them out."),
    (r"part: #(?P<n>\d+) has \d+ parameters and wants \d+", "The instance has too few parameters for its entity.", "docs/PARTS.md has the entities with their parameters."),
    (r"part: #(?P<n>\d+) parameter (?P<k>\d+) has a wrong kind", "The parameter, counted from 1, is of another form than its entity wants: a text for a number, say, or nothing where something is wanted.", "Look at the parameter."),
    (r"part: #(?P<n>\d+) parameter (?P<k>\d+) is out of range", "The number is out of its limits (docs/PARTS.md).", "Look at the number and its unit: lengths are millimetres, feeds m/s and speeds rev/s."),
    (r"part: #(?P<n>\d+) parameter (?P<k>\d+) names nothing", "No instance has the number that stands there.", "The file is not whole: export the part again."),
    (r"part: #(?P<n>\d+) parameter (?P<k>\d+) names #(?P<m>\d+) of a wrong kind", "The instance that is named is of no entity that may stand there.", "Look at both."),
    (r"part: #(?P<n>\d+) on a cycle", "The instance leads back to itself.", "Look at what it names."),
    (r"part: #(?P<n>\d+) has no value", "A condition asks for this variable, which has no initial value.", "Give it by NAME=VALUE."),
    (r"part: #(?P<n>\d+) names a second setup", "A nested workplan names another setup than the main one.", "A program is for one setup: make a project for each."),
    (r"part: too many steps", "More than 1,000 workingsteps are executed, or the walk over the workplans visits more than 10,000 executables, conditions and values.", "Split the workplan."),
    (r"part: #(?P<n>\d+) is skew", "The placement does not stand along the axes, or a feature would have to be cut from another side than from above.", "Turn the part in its setup."),
    (r"part: #(?P<n>\d+) leaves the range", "What the placement places is more than 2,000 mm from zero.", "Move zero."),
    (r"part: raw box unknown", "The workpiece has no BLOCK.", "Give the raw box: --raw X0,Y0,Z0,X1,Y1,Z1, in millimetres from the setup's origin."),
    (r"part: security plane below the raw top", "The highest security plane is below the top of the raw box.", "Raise the plane, or look at --raw."),
    (r"part: #(?P<n>\d+) has its floor above its top", "The depth of the feature is above its origin.", "Depths are negative, or zero."),
    (r"part: #(?P<n>\d+) has a bad outline", "A size of the outline of the feature is 0; its polygon has fewer than 3 points, or its trail fewer than 2; its polyline has more than 1,000 points; or the direction of its path lies on Z.", "Look at its size."),
    (r"part: #(?P<n>\d+) has a wrong tool", "The workingstep has an operation or a tool that does not go with its feature.", "docs/JOBS.md says which go together."),
    (r"part: #(?P<n>\d+) has a short tool", "The tool of the workingstep is shorter than the way from the raw top down to its lowest tip.", "Take a longer tool."),
    (r"part: grid too big", "The raw box, grown on each side by the greatest of half the tools' diameters, the side allowances and half the corner diameters, holds more than 4,000,000 grid points, or one of them is more than 2,000 mm from zero.", "Take a greater --cell."),
    (r"part: #(?P<n>\d+) too small for the grid", "No point of the grid in the feature has to be cut: each has an edge of the feature within two points of the grid beside it.", "Take a smaller --cell: for a hole at most its diameter divided by 7.1."),
    (r"uncovered #(?P<n>\d+) i (?P<i>-?\d+) j (?P<j>-?\d+) z (?P<z>-?\d+)", "No workingstep of the feature reaches this cell, which has to be cut.", "A smaller tool, a deeper step, or another step for what is left."),
)
SHOWN_BEFORE, SHOWN_BEHIND = 60, 60


@dataclass
class Excerpt:
    """A piece of the part's text with the place that is meant."""

    title: str
    before: str
    marked: str
    behind: str


@dataclass
class Refusal:
    """A refusal with its meaning. The cell is in millimetres."""

    message: str
    cause: str
    action: str
    excerpts: list
    number: int = None
    cell: tuple = None


def _line_of(text, offset):
    return text.count("\n", 0, offset) + 1, offset - (text.rfind("\n", 0, offset) + 1) + 1


def _at_offset(text, offset):
    line, column = _line_of(text, offset)
    begin = max(text.rfind("\n", 0, offset) + 1, offset - SHOWN_BEFORE)
    end = text.find("\n", offset)
    end = min(len(text) if end < 0 else end, offset + SHOWN_BEHIND)
    title = f"Byte {offset}: line {line}, column {column}" + (", the end of the file" if offset >= len(text) else "")
    return Excerpt(title, text[begin:offset], text[offset : offset + 1].strip("\r\n") or "\u2423", text[offset + 1 : end])


def _parameter(text, instance, place):
    """The begin and end of a parameter of an instance in the text, or of the whole instance."""
    depth, count, begin = 0, 1, None
    at, is_string, is_comment = instance.begin, False, False
    while at < instance.end:
        sign = text[at]
        if is_string:
            is_string = sign != "'"
        elif is_comment:
            is_comment = text[at - 1 : at + 1] != "*/"
        elif text.startswith("/*", at):
            is_comment = True
            at += 1
        elif sign == "'":
            is_string = True
        elif sign == "(":
            depth += 1
            if depth == 1:
                begin = at + 1
        elif sign == ")" and depth > 1:
            depth -= 1
        elif sign == ")" or sign == "," and depth == 1:
            if count == place:
                return begin, at
            count, begin = count + 1, at + 1
        at += 1
    return instance.begin, instance.end


def _of_instance(part, number, place=None):
    instance = part.instances.get(number)
    if instance is None:
        return None
    text = part.text.text
    begin, end = _parameter(text, instance, place) if place else (instance.begin, instance.begin)
    line, _ = _line_of(text, instance.begin)
    title = f"#{number}, line {line}"
    if place:
        title += f", parameter {place}"
    return Excerpt(title, text[instance.begin : begin], text[begin:end], text[end : instance.end][:400])


def explain(message, part, pitch):
    """What the line of a refusal means for a part, on a grid of this pitch in millimetres."""
    said = message.removeprefix("stepmill: ")
    for pattern, cause, action in MESSAGES:
        match = re.fullmatch(pattern, said)
        if match:
            break
    else:
        return Refusal(message, "", "docs/USE.md has the messages.", [])
    found = {name: int(value) for name, value in match.groupdict().items()}
    excerpts = []
    if "at" in found:
        excerpts.append(_at_offset(part.text.text, found["at"]))
    else:
        for key in ("n", "m"):
            if key in found:
                excerpts.append(_of_instance(part, found[key], found.get("k") if key == "n" else None))
    cell = (found["i"] * pitch, found["j"] * pitch, found["z"] / 10_000) if "z" in found else None
    return Refusal(message, cause, action, [e for e in excerpts if e], found.get("n"), cell)
