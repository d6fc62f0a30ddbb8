"""The second way for the scripts of users/ that plan what to buy, to make and to store."""
import numpy as np

from .model import Model


def diet_dict():
    names = ["oats", "chicken", "eggs", "milk", "pie", "pork"]
    price = np.array([0.30, 2.40, 1.30, 0.90, 2.00, 1.90])
    content = np.array([[110, 205, 160, 160, 420, 260], [4, 32, 13, 8, 4, 14], [2, 12, 54, 285, 22, 80]])
    model = Model()
    x = model.variables(6, low=0)
    needs = model.at_most(model.expression([2000, 55, 800]), content @ x)
    model.at_most(x, [4, 3, 2, 8, 2, 2])
    found = model.minimize(price @ x)
    answer = {"cost": found.value}
    answer.update(zip(names, found.of(x)))
    answer.update(zip(["price of kcal", "price of protein", "price of calcium"], found.duals[needs]))
    return answer


def transport_matrix():
    cost = np.array([[8.5, 6.2, 10.1, 9.7], [9.3, 12.8, 13.4, 7.6], [14.2, 9.9, 16.5, 5.1]])
    model = Model()
    x = model.variables(3, 4, low=0)
    capacity = model.at_most(x.sum(axis=1), [35, 50, 40])
    model.equal(x.sum(axis=0), [45, 20, 28, 30])
    found = model.minimize((cost[..., np.newaxis] * x).sum(axis=(0, 1)))
    answer = {"cost": found.value, "unused": 125 - 123, "check": found.value}
    for i in range(3):
        answer[f"capacity {i}"] = found.duals[capacity][i]
        for j in range(4):
            answer[f"x {i} {j}"] = found.of(x)[i, j]
    return answer


def production_classes():
    model = Model()
    table, chair = model.variables(low=0), model.variables(low=0, high=18)
    shelf, lamp = model.variables(low=0), model.variables(low=0, high=25)
    saw = model.at_most(4 * table + chair + 2.5 * shelf, 80)
    lathe = model.at_most(1.5 * table + 2.5 * chair + 0.5 * lamp, 60)
    paint = model.at_most(2 * table + 0.75 * chair + shelf + 0.5 * lamp, 45.5)
    found = model.maximize(90 * table + 35 * chair + 40 * shelf + 22 * lamp)
    return {
        "profit": found.value, "table": found.of(table), "chair": found.of(chair), "shelf": found.of(shelf),
        "lamp": found.of(lamp),
        "saw": found.duals[saw][0], "lathe": found.duals[lathe][0], "paint": found.duals[paint][0],
    }


def inventory_table():
    demand = np.array([120, 150, 90, 210, 180, 130])
    price = np.array([3.2, 3.0, 3.4, 3.1, 2.9, 3.3])
    model = Model()
    normal, overtime = model.variables(6, low=0, high=140), model.variables(6, low=0, high=40)
    stock = model.variables(6, low=10)
    for month in range(6):
        before = stock[month - 1] if month else 20 * model.one
        model.equal(stock[month], before + normal[month] + overtime[month] - demand[month] * model.one)
    changes = model.absolute(normal[1:] - normal[:-1])
    cost = price @ normal + 1.5 * price @ overtime + 0.25 * stock.sum(axis=0) + 0.1 * changes.sum(axis=0)
    found = model.minimize(cost)
    return {"cost": found.value, "stock costs": 0.25 * found.of(stock).sum(), "least stock": found.of(stock).min()}


def blend_arguments(iron=0.6, tonnes=100):
    content, silica = np.array([0.66, 0.62, 0.57, 0.51]), np.array([0.02, 0.04, 0.06, 0.09])
    model = Model()
    x = model.variables(4, low=0)
    model.equal(x.sum(axis=0), tonnes)
    model.at_most(model.expression(iron * tonnes), content @ x)
    model.at_most(silica @ x, 0.05 * tonnes)
    model.at_most(x, [50, 60, 80, 90])
    found = model.minimize(np.array([78, 65, 48, 35]) @ x)
    if found is None:
        return {"feasible": 0}
    return {"feasible": 1, "cost": found.value, "iron": content @ found.of(x)}


def goals_groupby():
    subjects = ["maths", "maths", "music", "sport", "music"]
    hours = [20, 16, 12, 18, 10]
    goals = [("maths", 15, 3), ("maths", 14, 3), ("maths", 13, 2), ("music", 9, 1), ("music", 10, 2), ("sport", 15, 1)]
    model = Model()
    x = model.variables(5, 6, low=0)
    for i in range(5):
        for j in range(6):
            if subjects[i] != goals[j][0]:
                model.equal(x[i, j])
    model.at_most(x.sum(axis=1), hours)
    want = model.expression([goal[1] for goal in goals])
    lacking = model.above(want - x.sum(axis=0), np.zeros(6))
    beyond = model.above(x.sum(axis=0) - want, np.zeros(6))
    work = x.sum(axis=1) / np.array(hours)[:, np.newaxis]
    most, least = model.variables(), model.variables()
    for part in work:
        model.at_most(part, most)
        model.at_most(least, part)
    priority = np.array([goal[2] for goal in goals])
    found = model.minimize(priority @ lacking + 0.1 * beyond.sum(axis=0) + 5 * (most - least))
    return {"value": found.value, "lacking": found.of(lacking).sum()}


def newsvendor_scenarios():
    demand = np.random.default_rng(11).integers(20, 80, size=(3, 15))
    buy, sell, salvage = np.array([4, 6, 3]), np.array([9, 11, 8]), np.array([1, 2, 0.5])
    answer = {}
    for careful in (False, True):
        model = Model()
        order, sold = model.variables(3, low=0), model.variables(3, 15, low=0)
        model.at_most(sold, demand)
        model.at_most(sold, np.broadcast_to(order[:, np.newaxis], sold.shape))
        model.at_most(order.sum(axis=0), 160)
        profit = [(sell - salvage) @ sold[:, s] + (salvage - buy) @ order for s in range(15)]
        if careful:
            threshold = model.variables()
            short = [model.above(threshold - part, 0) for part in profit]
            answer["worst fifth"] = answer["by hand"] = model.maximize(threshold - sum(short) / 3).value
        else:
            answer["mean"] = model.maximize(sum(profit) / 15).value
    return answer


def project_json():
    days, crash = np.array([7, 4, 12, 9, 5, 6, 3]), np.array([4, 3, 9, 5, 4, 3, 2])
    rate = np.array([40, 60, 25, 35, 55, 30, 90])
    model = Model()
    begin, takes = model.variables(7, low=0), model.variables(7)
    model.at_most(model.expression(crash), takes)
    model.at_most(takes, days)
    for before, after in [(0, 1), (1, 3), (2, 3), (3, 4), (3, 5), (4, 6), (5, 6)]:
        model.at_most(begin[before] + takes[before], begin[after])
    end = model.above(*(begin + takes))
    late = model.above(end - 24 * model.one, 0)
    found = model.minimize(rate @ (model.expression(days) - takes) + 75 * late)
    finish = (found.of(begin) + found.of(takes)).max()
    return {"cost": found.value, "end": finish, "late": max(finish - 24, 0)}
