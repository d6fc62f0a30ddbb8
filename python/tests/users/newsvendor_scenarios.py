"""Orders before the demand is known: two stages, forty scenarios, and a bound on the bad ones."""
import cvxpy as cp
import numpy as np

rng = np.random.default_rng(11)
goods, S = 3, 15
demand = rng.integers(20, 80, size=(goods, S))
buy = np.array([4, 6, 3])
sell = np.array([9, 11, 8])
salvage = np.array([1, 2, 0.5])

order = cp.Variable(goods, nonneg=True)
sold = cp.Variable((goods, S), nonneg=True)
profit = sell @ sold + salvage @ (order[:, None] @ np.ones((1, S)) - sold) - buy @ order
constraints = [sold <= demand] + [sold[:, s] <= order for s in range(S)] + [cp.sum(order) <= 160]

mean = cp.Problem(cp.Maximize(cp.mean(profit)), constraints)
mean.solve()
risky = mean.value

threshold = cp.Variable()
careful = cp.Problem(cp.Maximize(threshold - cp.sum(cp.pos(threshold - profit)) / (0.2 * S)), constraints)
careful.solve()
by_hand = np.sort(profit.value)[: S // 5].mean()

print(f"mean {risky:.3f}; worst fifth {careful.value:.3f} = {by_hand:.3f} with orders {order.value}")
ANSWER = {"mean": risky, "worst fifth": careful.value, "by hand": float(by_hand)}
