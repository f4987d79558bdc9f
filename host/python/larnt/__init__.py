"""Hidden-line drawings of yards by the proved library: scenes, cameras, drawings and sheets.

    import larnt

    scene = larnt.Scene()
    scene.silo(2200, 7000, 1300, at=(-5500, 0, 0), name="north silo")
    scene.cube((-3800, -5200, 0), (-1400, -3400, 1800), name="hut")
    camera = larnt.Camera(eye=(15000, -26000, 13000), target=(-200, -400, 4400), field_of_view=25)
    drawing = scene.draw(camera)
    print(len(drawing.paths), "lines;", scene.why_hidden(camera.eye, (-2600, -3300, 100)).name)

Nothing but Python and the library is needed to draw (library.py). `forms.read` and `forms.write` are the texts of the
program `yard`; `python3 -m larnt sheet` makes sheets.
"""
from . import forms, hidden, matrices, sheets, texts
from .account import Account
from .camera import Camera, View
from .drawing import Drawing
from .lengths import distance, length, sqrt
from .library import Missing
from .plotter import Plotter, pick, ways
from .ranges import OutOfTime
from .refusals import WORDS, Refused
from .scene import COARSE, FINE, MOST_POINTS, Part, Scene
from .solids import BY_CORE, DIFFERENCE, INTERSECTION, NO_LINES, Cone, Cube, Cut, Cylinder, Operation, Placed, Rounded, Solid, Sphere, Triangle, Turned, pipe

__all__ = (
    "Account BY_CORE COARSE DIFFERENCE FINE INTERSECTION MOST_POINTS NO_LINES WORDS Camera Cone Cube Cut Cylinder Drawing Missing Operation OutOfTime Part "
    "Placed Plotter Refused Rounded Scene Solid Sphere Triangle Turned View distance forms hidden length matrices pick pipe sheets sqrt texts ways"
).split()
