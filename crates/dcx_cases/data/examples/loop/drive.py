# Heats a greenhouse for eight hours: at each one the thermometer is read, the next six hours are planned, and the first of them is done.
from fractions import Fraction

import dcx.cvxpy as cp

FORECAST = [4, 3, 2, 2, 3, 5, 7, 8, 9, 9, 8, 7, 6]    # degrees outside
PRICES = [2, 2, 2, 3, 6, 6, 4, 3, 3, 4, 6, 6, 3]      # of a degree's heat
DOORS = {2: 2, 5: 1}                                  # degrees that are lost at a door, of which no forecast knows


def plan():
    """The problem of the next six hours, and the parameters that change from hour to hour."""
    measured = cp.Parameter(name="measured")
    outside = cp.Parameter(6, name="outside")
    price = cp.Parameter(6, nonneg=True, name="price")
    heat = cp.Variable(6, nonneg=True, name="heat")
    warm = cp.Variable(7, name="warm")
    rules = [warm[0] == measured, heat <= 5]
    rules += [warm[hour + 1] == warm[hour] + (outside[hour] - warm[hour]) / 4 + heat[hour] for hour in range(6)]
    cold = cp.sum(cp.pos(12 - warm[1:]))
    return cp.Problem(cp.Minimize(price @ heat + 20 * cold), rules), measured, outside, price, heat


def read(degrees):
    """What the thermometer shows: half degrees."""
    return Fraction(round(2 * degrees), 2)


def main():
    prob, measured, outside, price, heat = plan()
    degrees, paid = Fraction(14), Fraction(0)
    for hour in range(8):
        measured.value = read(degrees)
        outside.value = FORECAST[hour : hour + 6]
        price.value = PRICES[hour : hour + 6]
        prob.solve()
        now = heat.exact[0]
        print(f"hour {hour}: {float(read(degrees)):4.1f} degrees, heat {float(now):.3f}, planned cost {float(prob.exact):.2f}")
        degrees += (FORECAST[hour] - degrees) / 4 + now - DOORS.get(hour, 0)
        paid += PRICES[hour] * now
    print(f"paid {float(paid):.2f}")


if __name__ == "__main__":
    main()
