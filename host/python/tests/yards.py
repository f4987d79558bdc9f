"""Yards of as many solids as one asks for: python3 host/python/tests/yards.py SOLIDS > YARD."""
import math
import pathlib
import sys

if __name__ == "__main__":
    sys.path.insert(0, str(pathlib.Path(__file__).resolve().parents[1]))

from larnt import Camera, Scene, forms


def yard(count):
    """So many drawn solids, of eight kinds in turn, on a square of places 8 metres apart; and a camera that sees them all."""
    scene, side = Scene(), math.ceil(math.sqrt(count))
    for k in range(count):
        x, y, high = 8000 * (k % side), 8000 * (k // side), 3000 + 700 * (k * 7 % 5)
        if k % 8 in (0, 3):
            scene.cylinder(2200, 0, high, at=(x, y, 0), closed=k % 16 == 0)
        elif k % 8 in (1, 4):
            scene.cone(2500, 2000, at=(x, y, 1000), slopes=6)
        elif k % 8 == 2:
            scene.sphere((x, y, 2000), 2000)
        elif k % 8 == 6:
            scene.pipe((x - 3000, y, 500), (x + 3000, y + 1500, high), 300)
        else:
            scene.cube((x - 2000, y - 2500, 0), (x + 2000, y + 2500, high))
    middle = 4000 * (side - 1)
    return scene, Camera((middle + 9000 * side, middle - 16000 * side, 9000 * side), (middle, middle, 1500), field_of_view=30)


if __name__ == "__main__":
    sys.stdout.write(forms.write(*yard(int(sys.argv[1]))))
