# When does each task of a new kitchen begin, in days? And why can't my schedule be kept?
import cvxpy as cp

plumber = cp.Parameter(nonneg=True)   # the plumber comes on this day at the earliest
delivery = cp.Parameter(nonneg=True)  # the cupboards are there from this day on
deadline = cp.Parameter(nonneg=True)  # all is done by then

start = cp.Variable(6, nonneg=True)
strip = start[0]
pipes = start[1]
wires = start[2]
plaster = start[3]
floor = start[4]
cupboards = start[5]

prob = cp.Problem(cp.Minimize(cupboards + 3), [
    pipes >= strip + 2,           # 1: stripping takes two days
    wires >= strip + 2,           # 2
    cp.abs(pipes - wires) <= 1,   # 3: plumber and electrician work hand in hand
    plaster >= pipes + 2,         # 4: the pipes take two days
    plaster >= wires + 1,         # 5: the wires take one
    floor >= plaster + 3,         # 6: plaster dries for three
    cupboards >= floor + 1,       # 7: the floor takes one
    cupboards >= delivery,        # 8
    cupboards + 3 <= deadline,    # 9: the cupboards take three
    pipes >= plumber,             # 10
])
