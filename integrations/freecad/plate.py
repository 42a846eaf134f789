"""The operations of the part `plate.stp` in FreeCAD, without a screen: writes the program that its post-processor makes.

    FREECAD_OUT=FILE [FREECAD_MILL=DIAMETER] [FREECAD_CLEARANCE=Z] freecadcmd plate.py

FREECAD_MILL is the diameter of the mill in mm (10). FREECAD_CLEARANCE is the clearance height of the last operation in mm (30,
as for the others: the security height of the part). FREECAD_POST has options of the post-processor.
"""

import os
import sys

import FreeCAD
import Part

try:
    from PathScripts import PathDrilling, PathJob, PathMillFace, PathPocketShape, PathPost, PathStock
    from PathScripts import PathToolBit, PathToolController
except ImportError:
    import Path.Op.Drilling as PathDrilling
    import Path.Main.Job as PathJob
    import Path.Op.MillFace as PathMillFace
    import Path.Op.PocketShape as PathPocketShape
    import Path.Post.Command as PathPost
    import Path.Main.Stock as PathStock
    import Path.Tool.Bit as PathToolBit
    import Path.Tool.Controller as PathToolController

HERE = os.path.dirname(os.path.abspath(__file__))
sys.path.insert(0, HERE)
import stepmill_post  # noqa: E402


def tool(name, shape, diameter):
    return PathToolBit.Factory.CreateFromAttrs(
        {"name": name, "shape": shape, "parameter": {"Diameter": "%g mm" % diameter}}, name
    )


def controller(job, name, bit, number, speed, feed):
    """A tool controller with one feed, in mm/min, along and across the tool."""
    made = PathToolController.Create(name, bit, number)
    set_controller(made, name, speed, feed)
    job.Proxy.addToolController(made)
    return made


def set_controller(made, name, speed, feed):
    made.Label = name
    made.SpindleSpeed = speed
    made.HorizFeed = made.VertFeed = "%g mm/min" % feed


def set_heights(operation, label, used, start, final, step, clearance=30):
    operation.Label = label
    operation.ToolController = used
    heights = {"ClearanceHeight": clearance, "SafeHeight": min(clearance, 24), "StartDepth": start, "FinalDepth": final}
    if step is not None:
        heights["StepDown"] = step
    for name, height in heights.items():
        operation.setExpression(name, None)
        setattr(operation, name, height)


def floor_at(shape, height):
    """The name of the face that lies level at a height."""
    for place, face in enumerate(shape.Faces):
        box = face.BoundBox
        if abs(box.ZMin - height) < 1e-6 and abs(box.ZMax - height) < 1e-6:
            return "Face%d" % (place + 1)
    raise ValueError("no face at %g" % height)


def round_face(shape):
    """The name of the face of the hole."""
    for place, face in enumerate(shape.Faces):
        if isinstance(face.Surface, Part.Cylinder):
            return "Face%d" % (place + 1)
    raise ValueError("no hole")


def build(mill, clearance):
    """The job: a plate of 100 by 60 by 20 mm with a hole and a pocket, out of a block that is 22 mm high."""
    document = FreeCAD.newDocument("plate")
    model = document.addObject("Part::Feature", "Plate")
    hole = Part.makeCylinder(5, 20, FreeCAD.Vector(20, 30, 0))
    pocket = Part.makeBox(45, 30, 8, FreeCAD.Vector(40, 15, 12))
    model.Shape = Part.makeBox(100, 60, 20).cut(hole).cut(pocket)
    job = PathJob.Create("Job", [model])
    job.Stock = PathStock.CreateBox(job, FreeCAD.Vector(100, 60, 22), FreeCAD.Placement())
    document.recompute()
    part = job.Model.Group[0]
    # The first operation takes the one controller of a new job; with two there, FreeCAD wants to ask which.
    facing = job.Tools.Group[0]
    facing.Tool.Diameter = mill
    set_controller(facing, "facing", 720, 2400)

    face = PathMillFace.Create("Face")
    face.BoundaryShape = "Stock"
    face.OffsetPattern = "ZigZagOffset"
    face.ZigZagAngle = 0
    face.StepOver = 50
    # Past the edges of the block by the radius: the middle of the tool goes along them.
    face.ExtraOffset = 5
    set_heights(face, "10 face", facing, 22, 20, 2.5)

    drilling = controller(job, "drilling", tool("drill", "drill.fcstd", 10), 2, 960, 300)
    pocketing = controller(job, "pocketing", facing.Tool, 1, 1200, 1200)
    bore = PathDrilling.Create("Drill")
    bore.Base = [(part, [round_face(part.Shape)])]
    # The part does not say the angle of the drill's point, so 5 mm of it are taken to be pointed.
    set_heights(bore, "11 drill", drilling, 20, -5, None)
    bore.setExpression("RetractHeight", None)
    bore.RetractHeight = 21

    floor = (part, [floor_at(part.Shape, 12)])
    rough = PathPocketShape.Create("Rough")
    rough.Base = [floor]
    rough.OffsetPattern = "ZigZagOffset"
    rough.ZigZagAngle = 0
    rough.StepOver = 40
    rough.ExtraOffset = 0.5
    set_heights(rough, "13 rough pocket", pocketing, 20, 12.5, 4)

    finish = PathPocketShape.Create("Finish")
    finish.Base = [floor]
    finish.OffsetPattern = "ZigZagOffset"
    finish.ZigZagAngle = 0
    finish.StepOver = 40
    set_heights(finish, "14 finish pocket", pocketing, 20, 12, 10, clearance)
    document.recompute()
    return job


def post_list(job):
    """The fixtures, tool controllers and operations in the order in which FreeCAD posts them."""
    command = getattr(PathPost, "CommandPathPost", None)
    if command is not None and hasattr(command, "buildPostList"):
        return command().buildPostList(job)[0]
    return PathPost.buildPostList(job)[0][1]


def main():
    job = build(float(os.environ.get("FREECAD_MILL", "10")), float(os.environ.get("FREECAD_CLEARANCE", "30")))
    stepmill_post.export(post_list(job), os.environ["FREECAD_OUT"], os.environ.get("FREECAD_POST", ""))


main()
