"""Writes settings along a trajectory for examples/control/model.py: `trajectory.py COUNT FOLDER` makes FOLDER/model.py and FOLDER/settings.txt.

A cart is measured fifty times a second, to a hundredth, while it is brought to rest; every four seconds it gets a push. Each setting is one state
as it was measured, so each is close to the one before it, as where a plan is made anew at each measurement.
"""
import os
import shutil
import sys
from fractions import Fraction

if len(sys.argv) != 3 or not sys.argv[1].isdigit():
    sys.exit(__doc__)
count, folder = int(sys.argv[1]), sys.argv[2]
here = os.path.dirname(os.path.abspath(__file__))
STEP = Fraction(1, 50)
PUSHES = [(3, 0), (-2, 1), (1, -1), (2, Fraction(1, 2)), (-3, 0)]


def rounded(x):
    return Fraction(round(x * 100), 100)


lines = []
place, speed = Fraction(0), Fraction(0)
for k in range(count):
    if k % 200 == 0:
        place, speed = map(Fraction, PUSHES[k // 200 % len(PUSHES)])
    lines.append(f"measured = [{rounded(place)}, {rounded(speed)}]")
    force = max(Fraction(-2), min(Fraction(2), -place - Fraction(7, 5) * speed))
    speed = max(Fraction(-3, 2), min(Fraction(3, 2), rounded((speed + force * STEP) * 100) / 100))
    place = rounded((place + speed * STEP) * 100) / 100
os.makedirs(folder, exist_ok=True)
shutil.copyfile(os.path.join(here, "..", "examples", "control", "model.py"), os.path.join(folder, "model.py"))
with open(os.path.join(folder, "settings.txt"), "w", encoding="utf-8") as out:
    out.write("\n".join(lines) + "\n")
