# What does a coffee stall ask for a small, a medium and a large cup? And how far may the neighbour's price move before that changes?
import cvxpy as cp

neighbour = cp.Parameter(nonneg=True)      # what the stall next door asks for a medium cup
last = cp.Parameter(nonneg=True, value=3)  # what we asked for one last year

small = cp.Variable(nonneg=True)
medium = cp.Variable(nonneg=True)
large = cp.Variable(nonneg=True)

# 40 small cups, 60 medium ones and 20 large ones are sold a day.
prob = cp.Problem(cp.Maximize(40*small + 60*medium + 20*large), [
    medium <= neighbour,               # 1: or they go next door
    small <= 2.50,                     # 2: more is asked for a small cup nowhere
    small <= medium - 0.50,            # 3: or nobody takes a small one
    large <= medium + 1,               # 4
    large <= 2*small,                  # 5: or they take two small ones
    cp.abs(medium - last) <= 0.60,     # 6: the regulars would grumble
])
