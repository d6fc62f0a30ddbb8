"""A blend of ores; the wanted iron and the tonnage come from the command line."""
import argparse
import sys

import cvxpy as cp


def blend(iron, tonnes, ores):
    use = cp.Variable(len(ores), nonneg=True)
    content = [ore["iron"] for ore in ores]
    silica = [ore["silica"] for ore in ores]
    constraints = [
        cp.sum(use) == tonnes,
        use @ content >= iron * tonnes,
        use @ silica <= 0.05 * tonnes,
        use <= [ore["stock"] for ore in ores],
    ]
    cost = cp.sum([ore["cost"] * use[i] for i, ore in enumerate(ores)])
    prob = cp.Problem(cp.Minimize(cost), constraints)
    prob.solve()
    return prob, use


def main(argv=None):
    parser = argparse.ArgumentParser(description=__doc__)
    parser.add_argument("--iron", type=float, default=0.6)
    parser.add_argument("--tonnes", type=int, default=100)
    args = parser.parse_args(argv)
    ores = [
        {"iron": 0.66, "silica": 0.02, "cost": 78, "stock": 50},
        {"iron": 0.62, "silica": 0.04, "cost": 65, "stock": 60},
        {"iron": 0.57, "silica": 0.06, "cost": 48, "stock": 80},
        {"iron": 0.51, "silica": 0.09, "cost": 35, "stock": 90},
    ]
    prob, use = blend(args.iron, args.tonnes, ores)
    if prob.status != cp.OPTIMAL:
        print("no blend:", prob.status, file=sys.stderr)
        return {"feasible": 0.0}
    print(f"{args.tonnes} tonnes at {args.iron:.0%} iron cost {prob.value:.2f}: {use.value.round(2)}")
    return {"feasible": 1.0, "cost": prob.value, "iron": float(sum(u * o["iron"] for u, o in zip(use.value, ores)))}


if __name__ == "__main__":
    ANSWER = main()
