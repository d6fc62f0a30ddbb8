"""Writes the rows of a program: `rows.py trial N Q` and `rows.py transport N`.

trial: the lines s t + a - b over N points, whose distances from b are added up, and Q times the distance of s from 0.
transport: N sources and N sinks, with what each has and wants, and what each way from a source to a sink costs.

`rows.py table RUNS [NAME=]PROGRAM ..` prints a table: the least of RUNS runs of each program (that of `crates/dcx_tableau_cases`) over the linked tableau of
each of these, the reading of the file and the building of the tableau taken off.
"""
import os
import sys
import tempfile

from taken import programs, run

MEASURED = ["trial 20 0", "trial 20 10", "trial 100 0", "trial 100 10", "trial 298 0", "trial 298 10", "transport 20", "transport 46"]


def trial(n, q):
    print("ff" + "n" * (n + 1))
    print("min 0", *(f"1x{2 + i}" for i in range(n)), *([f"{q}x{2 + n}"] if q else []))
    for i in range(n):
        b = 2 * i + 1 + (10 if i % 5 == 0 else 0)
        s = [f"{i}x0"] if i else []
        t = [f"-{i}x0"] if i else []
        print("most", -b, *s, "1x1", f"-1x{2 + i}")
        print("most", b, *t, "-1x1", f"-1x{2 + i}")
    print("most 0 1x0", f"-1x{2 + n}")
    print("most 0 -1x0", f"-1x{2 + n}")


def transport(n):
    ways = [(i, j) for i in range(n) for j in range(n)]
    print("n" * (n * n))
    print("min 0", *(f"{1 + (i * i + 3 * j * j + 5 * i * j) % 17}x{i * n + j}" for i, j in ways))
    for i in range(n):
        print("most", -(20 + 7 * i % 11), *(f"1x{i * n + j}" for j in range(n)))
    for j in range(n):
        print("most", 10 + 5 * j % 7, *(f"-1x{i * n + j}" for i in range(n)))


def table(runs, measured):
    print("| program | pivots | " + " | ".join(program.name for program in measured) + " |\n|" + "---|" * (2 + len(measured)))
    with tempfile.TemporaryDirectory() as folder:
        for name in MEASURED:
            run([sys.executable, os.path.abspath(__file__), *name.split()], to=os.path.join(folder, "rows.txt"))
            told, least = set(), {}
            for _ in range(runs):
                for program in measured:
                    for most in ("1000000", "0"):
                        made = run([program.path, "linked", "rows.txt", most], folder=folder)
                        least[program, most] = min(least.get((program, most), made.seconds), made.seconds)
                        told |= {made.printed} if most != "0" else set()
            if len(told) != 1:
                raise SystemExit(f"{name}: {told}")
            pivots = int(told.pop().split(" pivots")[0].split()[-1])
            cells = [f"{least[program, '1000000'] - least[program, '0']:.3f}" for program in measured]
            print(f"| `{name}` | {pivots:,} | " + " | ".join(cells) + " |", flush=True)


if sys.argv[1:2] == ["table"] and len(sys.argv) > 3 and sys.argv[2].isdigit():
    table(int(sys.argv[2]), programs(sys.argv[3:]))
elif sys.argv[1:2] == ["trial"] and len(sys.argv) == 4 and all(it.isdigit() for it in sys.argv[2:]):
    trial(int(sys.argv[2]), int(sys.argv[3]))
elif sys.argv[1:2] == ["transport"] and len(sys.argv) == 3 and sys.argv[2].isdigit():
    transport(int(sys.argv[2]))
else:
    sys.exit(__doc__)
