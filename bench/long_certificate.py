#!/usr/bin/env python3
"""long_certificate.py N COUNT FOLDER: writes a problem with N bounds of 29 digits each, and COUNT settings. Its certificate has about 130 * N * COUNT bytes."""
import os
import random
import sys

PLACES = 29


def main(n, count, folder):
    draw = random.Random(n)
    # (the last digit is odd and not 5, so that no fraction gets shorter)
    bounds = [f"0.{draw.randrange(10 ** (PLACES - 2), 10 ** (PLACES - 1))}{draw.choice('1379')}" for _ in range(n)]
    os.makedirs(folder, exist_ok=True)
    with open(f"{folder}/model.py", "w", encoding="utf-8") as it:
        it.write("import cvxpy as cp\nimport numpy as np\n\np = cp.Parameter()\n")
        it.write(f"least = cp.Parameter({n}, value=np.array([{', '.join(bounds)}]))\nx = cp.Variable({n})\ny = cp.Variable()\n")
        it.write("prob = cp.Problem(cp.Minimize(cp.sum(x) + y), [x >= least, y >= p])\n")
    with open(f"{folder}/settings.txt", "w", encoding="utf-8") as it:
        it.writelines(f"p = {k}\n" for k in range(count))


if __name__ == "__main__":
    if len(sys.argv) != 4 or not all(it.isdigit() for it in sys.argv[1:3]):
        sys.exit(__doc__)
    main(int(sys.argv[1]), int(sys.argv[2]), sys.argv[3])
