"""What is the cheapest diet, and what is each nutrient worth?"""
import cvxpy as cp

FOODS = {
    "oats": {"price": 0.30, "kcal": 110, "protein": 4, "calcium": 2},
    "chicken": {"price": 2.40, "kcal": 205, "protein": 32, "calcium": 12},
    "eggs": {"price": 1.30, "kcal": 160, "protein": 13, "calcium": 54},
    "milk": {"price": 0.90, "kcal": 160, "protein": 8, "calcium": 285},
    "pie": {"price": 2.00, "kcal": 420, "protein": 4, "calcium": 22},
    "pork": {"price": 1.90, "kcal": 260, "protein": 14, "calcium": 80},
}
NEEDS = {"kcal": 2000, "protein": 55, "calcium": 800}
MAX_SERVINGS = {"oats": 4, "chicken": 3, "eggs": 2, "milk": 8, "pie": 2, "pork": 2}


def total(servings, key):
    return sum(food[key] * servings[name] for name, food in FOODS.items())


servings = {name: cp.Variable(nonneg=True, name=name) for name in FOODS}
needs = {key: total(servings, key) >= amount for key, amount in NEEDS.items()}
limits = [servings[name] <= most for name, most in MAX_SERVINGS.items()]

problem = cp.Problem(cp.Minimize(total(servings, "price")), list(needs.values()) + limits)
cost = problem.solve()

print(f"status {problem.status}, cost {cost:.2f}")
for name, amount in servings.items():
    if amount.value > 1e-6:
        print(f"  {name:10s} {amount.value:.3f}")
for key, need in needs.items():
    print(f"  one more {key} costs {need.dual_value:.5f}")

ANSWER = {"cost": cost}
ANSWER.update({name: float(amount.value) for name, amount in servings.items()})
ANSWER.update({"price of " + key: float(need.dual_value) for key, need in needs.items()})
