"""Depots and shops on a grid of streets."""
DEPOTS = {
    "north": {"at": (2, 9), "stock": 60},
    "south": {"at": (5, 1), "stock": 55},
    "harbour": {"at": (9, 4), "stock": 30},
}
PLACES = {"bakery": (1, 3), "market": (4, 6), "school": (7, 7), "station": (8, 2)}
SHOPS = {"bakery": 25, "market": 40, "school": 35, "station": 20}


def distance(depot, shop):
    (a, b), (c, d) = DEPOTS[depot]["at"], PLACES[shop]
    return abs(a - c) + abs(b - d)


def total_need():
    return sum(SHOPS.values())
