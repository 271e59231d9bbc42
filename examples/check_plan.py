"""Says whether a plan text is a plan of least cost for a sheet text, without trusting the panel.

    python3 examples/check_plan.py SHEET PLAN

prints `the plan is least: total T`, or `wrong: ..` with the first thing that does not fit, and then exits with 1.
It checks neither the count of rounds nor that the plan is the settled one among plans of the same cost.
"""
import pathlib
import re
import sys

NATURAL, WHOLE = "(0|[1-9][0-9]*)", "(0|-?[1-9][0-9]*)"
MOST = 1_000_000


def require(good, what):
    if not good:
        raise ValueError(what)


def section(lines, name, counts, number=NATURAL, width=1):
    """Takes a section off the lines: its head `name K`, K among the counts, and K lines of `width` numbers, which it gives."""
    head = next(lines, "")
    require(head in [f"{name} {k}" for k in counts], f"{head!r} where section {name} should begin")
    body = [next(lines, "") for _ in range(int(head.split(" ")[1]))]
    for line in body:
        require(re.fullmatch(" ".join([number] * width), line), f"{line!r} in section {name}")
    return [[int(x) for x in line.split(" ")] for line in body]


def read_sheet(text):
    """Supplies, demands and rows of costs."""
    lines = iter(text.split("\n"))
    supply = sum(section(lines, "supply", range(1, 33)), [])
    demand = sum(section(lines, "demand", range(1, 33)), [])
    cost = section(lines, "cost", [len(supply)], WHOLE, width=len(demand))
    require(list(lines) == [""], "the sheet does not end with the line end after its costs")
    require(all(amount <= MOST for amount in supply + demand), "a supply or demand is outside the limits")
    require(all(-MOST <= price <= MOST for row in cost for price in row), "a cost is outside the limits")
    require(sum(demand) > 0, "total demand is 0")
    return supply, demand, cost


def read_plan(text, m, n):
    """The total, the prices of roasteries and of cafés, and the bags on each lane that carries any, both numbers from 0."""
    lines = iter(text.split("\n"))
    [[total]] = section(lines, "total", [1], WHOLE)
    section(lines, "rounds", [1])
    u = sum(section(lines, "roasteries", [m], WHOLE), [])
    v = sum(section(lines, "cafes", [n], WHOLE), [])
    lanes = section(lines, "lanes", range(1, m * n + 1), width=3)
    require(list(lines) == [""], "the plan does not end with the line end after its lanes")
    for before, (i, j, bags) in zip([[0, 0]] + lanes, lanes):
        require(1 <= i <= m and 1 <= j <= n, f"lane {i} {j} is not on the sheet")
        require(bags >= 1, f"lane {i} {j} carries no bag")
        require(before[:2] < [i, j], f"lane {i} {j} is out of order")
    return total, u, v, {(i - 1, j - 1): bags for i, j, bags in lanes}


def check_prices_at_0(supply, demand, cost, u, v):
    """A café that wants nothing has the greatest price that its lanes from roasteries with bags allow, and then a roastery that has nothing
    the greatest that all its lanes allow; and where bags are kept, its price is not above that of the roasteries that keep them."""
    left = [i for i, amount in enumerate(supply) if amount > 0]
    for j in (j for j, amount in enumerate(demand) if amount == 0):
        price = min(cost[i][j] - u[i] for i in left)
        require(v[j] == price, f"café {j + 1} wants nothing, and its price is {v[j]} where {price} follows")
    kept = [max(u[i] for i in left)] if sum(supply) > sum(demand) else []
    for i in (i for i, amount in enumerate(supply) if amount == 0):
        price = min([cost[i][j] - v[j] for j in range(len(demand))] + kept)
        require(u[i] == price, f"roastery {i + 1} has nothing, and its price is {u[i]} where {price} follows")


def check(sheet_text, plan_text):
    """Gives the total, or raises ValueError with what does not fit."""
    supply, demand, cost = read_sheet(sheet_text)
    total, u, v, plan = read_plan(plan_text, len(supply), len(demand))
    sent = [sum(bags for (row, _), bags in plan.items() if row == i) for i in range(len(supply))]
    brought = [sum(bags for (_, column), bags in plan.items() if column == j) for j in range(len(demand))]
    for i, (bags, amount) in enumerate(zip(sent, supply)):
        require(bags <= amount, f"roastery {i + 1} has {amount} bags on the sheet and {bags} in the plan")
    for j, (bags, amount) in enumerate(zip(brought, demand)):
        require(bags == amount, f"café {j + 1} has {amount} bags on the sheet and {bags} in the plan")
    paid = sum(bags * cost[i][j] for (i, j), bags in plan.items())
    require(paid == total, f"the bags cost {paid}, and the total is {total}")
    first = next(i for i, amount in enumerate(supply) if amount > 0)
    require(u[first] == 0, f"the price of roastery {first + 1} is {u[first]}")
    # Why the prices prove the plan least: no lane costs less than u + v, so any plan that meets the sheet, also in fractions, costs at least
    # the sum of bags times (u + v). By roastery and by café that is supply times u and demand times v, less the bags kept times u, which are
    # at most the surplus times the greatest u. So there is one number that no plan goes below. Ours pays just u + v wherever it carries a
    # bag, and keeps bags only where u is greatest, so it costs just that number. Costs, prices and that number may be below 0.
    for i, j in ((i, j) for i in range(len(supply)) for j in range(len(demand))):
        over = cost[i][j] - u[i] - v[j]
        require(over >= 0, f"lane {i + 1} {j + 1} costs {-over} less than its prices")
        require(over == 0 or (i, j) not in plan, f"lane {i + 1} {j + 1} carries bags and costs {over} more than its prices")
    for i, (bags, amount) in enumerate(zip(sent, supply)):
        require(bags == amount or u[i] == max(u), f"roastery {i + 1} keeps bags, and its price is {max(u) - u[i]} below the greatest")
    check_prices_at_0(supply, demand, cost, u, v)
    return total


if __name__ == "__main__":
    if len(sys.argv) != 3:
        sys.exit("usage: python3 check_plan.py SHEET PLAN")
    try:
        sheet, plan = (pathlib.Path(path).read_bytes().decode("latin-1") for path in sys.argv[1:])
        print("the plan is least: total", check(sheet, plan))
    except (OSError, ValueError) as what:
        print("wrong:", what)
        sys.exit(1)
