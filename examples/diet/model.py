# The cheapest servings of a day that give enough of four things, with no more of one food than a person eats. The prices are in cents.
import cvxpy as cp
import numpy as np

#                   bread milk  eggs  beans apples cheese
energy   = np.array([250, 150,  155,  330,   80,   400])
protein  = np.array([  9,   8,   13,   21,    0,    25])
calcium  = np.array([ 30, 280,   50,  110,   10,   700])
vitamin  = np.array([  0,   2,    0,    1,    9,     0])
most     = np.array([  8,   6,    3,    3,    5,     2])

price = cp.Parameter(6, nonneg=True)
servings = cp.Variable(6, nonneg=True)

prob = cp.Problem(cp.Minimize(price @ servings), [
    energy @ servings >= 2200,
    protein @ servings >= 70,
    calcium @ servings >= 1000,
    vitamin @ servings >= 20,
    servings <= most,
])
