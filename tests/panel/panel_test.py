"""Holds the program to stored texts, to a search through all plans, and to plans that prove themselves, on balanced sheets and on
sheets with a surplus, with costs of both signs, with parties at 0 and without; and its reading and writing to docs/FORMATS.md. The
variable PANEL may name another program to hold to them.

P2, P5 and P9 of paper 01 speak of run and settle on tableaux, which no text can ask for: rust/tests has them.
"""
import contextlib
import os
import pathlib
import random
import shutil
import signal
import subprocess
import sys
import tempfile
import time

ROOT = pathlib.Path(__file__).resolve().parents[2]
EXAMPLES = ROOT / "examples"
CASES = ROOT / "tests/panel/cases"
PANEL = pathlib.Path(os.environ.get("PANEL", ROOT / "target/bin/panel")).absolute()

sys.dont_write_bytecode = True
sys.path.insert(0, str(EXAMPLES))
import check_plan  # noqa: E402

LONGEST = 9_756
MOST = 1_000_000
CANNOT_READ = b"panel: cannot read standard input\n"
CANNOT_WRITE = b"panel: cannot write standard output\n"
WORKED = (EXAMPLES / "worked.sheet").read_bytes()
WORKED_PLAN = (EXAMPLES / "worked.plan").read_bytes()

passed = failed = 0


def test(name, good):
    global passed, failed
    if good:
        passed += 1
    else:
        failed += 1
        print("failed:", name)


# ---- running a program


def run(command, text=None, **options):
    """Standard output, standard error and exit status."""
    options = {"stdout": subprocess.PIPE, "stderr": subprocess.PIPE, **options}
    done = subprocess.run(command, input=text, timeout=20, check=False, **options)
    return done.stdout, done.stderr, done.returncode


def answers(text, output):
    return run([PANEL], text) == (output, b"", 0)


def run_in_pieces(pieces, pause):
    """Standard output, where each piece of the input comes a while after the one before."""
    with subprocess.Popen([PANEL], stdin=subprocess.PIPE, stdout=subprocess.PIPE, bufsize=0) as process:
        with contextlib.suppress(BrokenPipeError):
            for piece in pieces:
                process.stdin.write(piece)
                time.sleep(pause)
        try:
            return process.communicate(timeout=20)[0]
        finally:
            process.kill()


def run_with_closed(command, stream, text=None):
    """With a standard stream closed: `<&-` or `>&-`."""
    return run(["sh", "-c", f'exec "$0" {stream}', command], text)


def run_on_directory(command):
    with opened(".", os.O_RDONLY) as directory:
        return run([command], stdin=directory)


def run_on_full_device(command):
    with opened("/dev/full", os.O_WRONLY) as device:
        return run([command], WORKED, stdout=device)


def run_on_closed_pipe(command):
    reader, writer = os.pipe()
    os.close(reader)
    try:
        return run([command], WORKED, stdout=writer)
    finally:
        os.close(writer)


@contextlib.contextmanager
def opened(path, flags):
    number = os.open(path, flags)
    try:
        yield number
    finally:
        os.close(number)


# ---- sheets


def sheet_text(supply, demand, cost):
    rows = [" ".join(map(str, row)) for row in cost]
    lines = [f"supply {len(supply)}", *supply, f"demand {len(demand)}", *demand, f"cost {len(cost)}", *rows]
    return "".join(f"{line}\n" for line in lines).encode()


def lane_section(lanes):
    return "".join([f"lanes {len(lanes)}\n"] + [f"{i} {j} {bags}\n" for i, j, bags in lanes]).encode()


def plan_text(total, rounds, u, v, lanes):
    lines = ["total 1", total, "rounds 1", rounds, f"roasteries {len(u)}", *u, f"cafes {len(v)}", *v]
    return "".join(f"{line}\n" for line in lines).encode() + lane_section(lanes)


def random_sheet(rng, m, n, bags, low, high):
    """The sheet that a random plan with up to `bags` on a lane meets, with costs from `low` to `high`."""
    while True:
        plan = [[rng.randint(0, bags) for _ in range(n)] for _ in range(m)]
        supply, demand = [sum(row) for row in plan], [sum(column) for column in zip(*plan)]
        if min(supply + demand) > 0:
            return supply, demand, [[rng.randint(low, high) for _ in range(n)] for _ in range(m)]


def any_range(rng, top):
    """The least and the greatest cost, at most `top` in size: from 0 on, up to 0, or of both signs."""
    return rng.choice([(0, top), (-top, 0), (-top, top), (-top, rng.randint(-top, top))])


def with_surplus(rng, sheet, bags):
    """The sheet where roasteries have up to so many bags more, one of them at least 1."""
    supply, demand, cost = sheet
    more = [rng.randint(0, bags) for _ in supply]
    more[rng.randrange(len(supply))] += 1
    return [min(have + got, MOST) for have, got in zip(supply, more)], demand, cost


def with_zeros(rng, sheet, m, n):
    """The sheet with parties at 0 between its own, so that there are m roasteries and n cafés."""
    supply, demand, cost = list(sheet[0]), list(sheet[1]), [list(row) for row in sheet[2]]
    low, high = min(sum(cost, [])), max(sum(cost, []))
    while len(supply) < m:
        i = rng.randint(0, len(supply))
        supply.insert(i, 0)
        cost.insert(i, [rng.randint(low, high) for _ in demand])
    while len(demand) < n:
        j = rng.randint(0, len(demand))
        demand.insert(j, 0)
        for row in cost:
            row.insert(j, rng.randint(low, high))
    return supply, demand, cost


def with_some_zeros(rng, sheet):
    """Up to two at each side, but one in all."""
    m, n = len(sheet[0]), len(sheet[1])
    more = rng.choice([(0, 1), (1, 0), (1, 1), (2, 1), (1, 2), (2, 2)])
    return with_zeros(rng, sheet, m + more[0], n + more[1])


def row_plans(left, wanted, spare):
    """All ways to send what is left to cafés that want so much, where so many bags may be kept."""
    if not wanted:
        return [()] if left <= spare else []
    return [(bags, *rest) for bags in range(min(left, wanted[0]) + 1) for rest in row_plans(left - bags, wanted[1:], spare)]


def all_plans(supply, wanted):
    """All plans, each as the bags on every lane in sheet order."""
    if not supply:
        return [()] if not any(wanted) else []
    return [
        row + rest
        for row in row_plans(supply[0], wanted, sum(supply) - sum(wanted))
        for rest in all_plans(supply[1:], [want - bags for want, bags in zip(wanted, row)])
    ]


def best_total_and_lanes(supply, demand, cost):
    """By a search through all plans: the first and the last section of the plan text."""
    costs = sum(cost, [])
    n = len(demand)

    def total(plan):
        return sum(bags * price for bags, price in zip(plan, costs))

    best = min(all_plans(supply, demand), key=lambda plan: (total(plan), [-bags for bags in plan]))
    lanes = [(k // n + 1, k % n + 1, bags) for k, bags in enumerate(best) if bags > 0]
    return f"total 1\n{total(best)}\n".encode(), lane_section(lanes)


def what_is_wrong(sheet, plan):
    """What check_plan finds, or None."""
    try:
        check_plan.check(sheet.decode("latin-1"), plan.decode("latin-1"))
    except ValueError as what:
        return str(what)
    return None


# ---- the tests


def stored_cases():
    for path in sorted(CASES.glob("*.in")):
        test(f"case {path.stem}", answers(path.read_bytes(), path.with_suffix(".out").read_bytes()))


def every_place():
    """On a sheet text cut anywhere the place is its length, and on one with a byte that no sheet text has, it is the bytes before it."""
    strangers = b"\0\t\r+./:@AZ`{\x7f\x80\xff"
    for k in range(len(WORKED)):
        stranger = strangers[k % len(strangers)]
        refused = b"refused 9 %d\n" % k
        test(f"the worked sheet cut at {k}", answers(WORKED[:k], refused))
        test(f"the worked sheet with byte {stranger} at {k}", answers(WORKED[:k] + bytes([stranger]) + WORKED[k + 1:], refused))


def is_planned(sheet):
    """Whether the program gives the total and the lanes that a search through all plans finds."""
    plan = run([PANEL], sheet_text(*sheet))[0]
    total, lanes = best_total_and_lanes(*sheet)
    return plan.startswith(total) and plan.endswith(b"\n" + lanes)


def every_minus():
    """A minus may stand where a cost begins, and nowhere else. Alone there, or before another or a 0, it is the last byte that is read.
    The costs of the worked sheet have one digit each."""
    costs = WORKED.index(b"cost 2\n") + len(b"cost 2\n")
    starts = [k for k in range(costs, len(WORKED)) if WORKED[k:k + 1].isdigit()]
    for k in range(len(WORKED) + 1):
        before, after = WORKED[:k], WORKED[k:]
        stuck = b"refused 9 %d\n" % (k + (k in starts))
        test(f"the worked sheet with - for byte {k}", answers(before + b"-" + after[1:], stuck))
        test(f"the worked sheet with -- before byte {k}", answers(before + b"--" + after, stuck))
        test(f"the worked sheet with -0 before byte {k}", answers(before + b"-0" + after, stuck))
        text = before + b"-" + after
        good = is_planned(check_plan.read_sheet(text.decode())) if k in starts else answers(text, stuck)
        test(f"the worked sheet with - before byte {k}", good)


def hold_small_sheets(name, count, make):
    rng = random.Random(11)
    other, unproved = [], []
    for _ in range(count):
        bags, top = rng.randint(1, 3), rng.choice([0, 1, 2, 5, MOST])
        sheet = make(rng, random_sheet(rng, rng.randint(1, 3), rng.randint(1, 3), bags, *any_range(rng, top)), bags)
        text = sheet_text(*sheet)
        if not is_planned(sheet):
            other.append(text)
        if what_is_wrong(text, run([PANEL], text)[0]) is not None:
            unproved.append(text)
    test(f"{count} small sheets {name}: total and lanes are those that a search through all plans finds; not on {other[:1]}", not other)
    test(f"{count} small sheets {name}: the prices prove the plan; not on {unproved[:1]}", not unproved)


def small_sheets():
    hold_small_sheets("in balance", 300, lambda rng, sheet, bags: sheet)
    hold_small_sheets("with a surplus", 300, with_surplus)
    hold_small_sheets("in balance with zeros", 200, lambda rng, sheet, bags: with_some_zeros(rng, sheet))
    hold_small_sheets("with a surplus and zeros", 200, lambda rng, sheet, bags: with_some_zeros(rng, with_surplus(rng, sheet, bags)))


def hold_large_sheet(name, sheet):
    text = sheet_text(*sheet)
    wrong = what_is_wrong(text, run([PANEL], text)[0])
    test(f"{name}: {wrong}", wrong is None)


def large_sheets():
    rng = random.Random(13)
    for k in range(20):
        bags = rng.choice([1, 5, 31_250])
        low, high = any_range(rng, rng.choice([3, 1_000, MOST]))
        about = f"bags to {bags}, costs from {low} to {high}"
        hold_large_sheet(f"large sheet {k}, {about}", random_sheet(rng, 32, 32, bags, low, high))
        sheet = with_surplus(rng, random_sheet(rng, 32, 31, bags, low, high), 16 * bags)
        hold_large_sheet(f"large sheet {k} with a surplus, {about}", sheet)
        thin = random_sheet(rng, rng.randint(1, 31), rng.randint(1, 31), bags, low, high)
        if k % 2 == 0:
            hold_large_sheet(f"large sheet {k} with zeros, {about}", with_zeros(rng, thin, 32, 32))
        else:
            sheet = with_zeros(rng, with_surplus(rng, thin, 16 * bags), 32, 31)
            hold_large_sheet(f"large sheet {k} with a surplus and zeros, {about}", sheet)


def full_sheet(cost):
    """The text of the fullest sheet, every lane at this cost, and its plan."""
    amounts, lanes = [MOST] * 32, [(k, k, MOST) for k in range(1, 33)]
    return sheet_text(amounts, amounts, [[cost] * 32] * 32), plan_text(32 * MOST * cost, 0, [0] * 32, [cost] * 32, lanes)


def long_sheet():
    """The longest sheet text, and its plan."""
    return full_sheet(-MOST)


def totals():
    """The greatest and the least, and one beyond the costs that give them."""
    for cost, total in ((MOST, b"32000000000000"), (-MOST, b"-32000000000000")):
        text, plan = full_sheet(cost)
        test(f"every cost {cost}: total {total.decode()}", plan.split(b"\n")[1] == total and answers(text, plan))
    for cost in (MOST + 1, -MOST - 1):
        test(f"every cost {cost}: refused", answers(full_sheet(cost)[0], b"refused 4\n"))


def long_texts():
    text, plan = long_sheet()
    refused = b"refused 9 %d\n" % LONGEST
    test("the longest sheet text has 9,756 bytes", len(text) == LONGEST)
    test("the longest sheet text", answers(text, plan))
    test("the longest sheet text, cut by a byte", answers(text[:-1], b"refused 9 %d\n" % (LONGEST - 1)))
    test("the longest sheet text, and a line end more", answers(text + b"\n", refused))
    test("the longest sheet text, and a byte 0 more", answers(text + b"\0", refused))
    test("the longest sheet text, and a megabyte more", answers(text + b"\n" * 1_000_000, refused))
    test("a megabyte of bytes 0", answers(b"\0" * 1_000_000, b"refused 9 0\n"))
    test("a short sheet text, and a megabyte more", answers(WORKED + b"7" * 1_000_000, b"refused 9 %d\n" % len(WORKED)))


def bytes_read():
    """The program takes no byte beyond the 9,757th from its input, and does not wait for more."""
    text, _ = long_sheet()
    text += b"\n" * (10_000 - len(text))
    refused = (b"refused 9 %d\n" % LONGEST, b"", 0)
    with tempfile.NamedTemporaryFile() as file:
        file.write(text)
        file.flush()
        with opened(file.name, os.O_RDONLY) as number:
            test("a file of 10,000 bytes", run([PANEL], stdin=number) == refused)
            test("a file is read up to byte 9,757", os.lseek(number, 0, os.SEEK_CUR) == LONGEST + 1)
    reader, writer = os.pipe()
    try:
        os.write(writer, text)
        test("a pipe of 10,000 bytes that stays open", run([PANEL], stdin=reader) == refused)
        os.close(writer)
        test("a pipe is read up to byte 9,757", len(os.read(reader, len(text))) == len(text) - LONGEST - 1)
    finally:
        os.close(reader)


def slow_input():
    text, plan = long_sheet()
    test("input a byte at a time", run_in_pieces([bytes([byte]) for byte in WORKED], 0.001) == WORKED_PLAN)
    test("input in two halves", run_in_pieces([WORKED[:20], WORKED[20:]], 0.05) == WORKED_PLAN)
    test("input cut in a number", run_in_pieces([text[:5_003], text[5_003:]], 0.05) == plan)
    test("the longest sheet text in pieces", run_in_pieces([text[k:k + 700] for k in range(0, LONGEST, 700)], 0.001) == plan)
    test("input from /dev/null", run([PANEL], stdin=subprocess.DEVNULL) == (b"refused 9 0\n", b"", 0))


def failing_streams():
    test("standard input is a directory", run_on_directory(PANEL) == (b"", CANNOT_READ, 0))
    test("standard input is closed", run_with_closed(PANEL, "<&-") == (b"", CANNOT_READ, 0))
    test("standard output is full", run_on_full_device(PANEL) == (None, CANNOT_WRITE, 0))
    test("standard output is closed", run_with_closed(PANEL, ">&-", WORKED) == (b"", CANNOT_WRITE, 0))
    test("standard output is a closed pipe", run_on_closed_pipe(PANEL) == (None, CANNOT_WRITE, 0))


def script_with_status():
    """The script bin/panel, set up beside the program under test."""
    with tempfile.TemporaryDirectory() as place:
        script = pathlib.Path(place, "bin/panel")
        program = pathlib.Path(place, "target/bin/panel")
        script.parent.mkdir()
        program.parent.mkdir(parents=True)
        shutil.copy(ROOT / "bin/panel", script)
        test("script without a program: 2", run([script], WORKED)[::2] == (b"", 2))
        program.symlink_to(PANEL)
        test("script on a plan: 0", run([script], WORKED) == (WORKED_PLAN, b"", 0))
        test("script called from its own place: 0", run(["./panel"], WORKED, cwd=script.parent) == (WORKED_PLAN, b"", 0))
        test("script on a surplus: 0", run([script], sheet_text([3], [2], [[0]]))[2] == 0)
        test("script on a plan that earns: 0", run([script], sheet_text([3], [2], [[-1]]))[2] == 0)
        test("script on more demand than supply: 1", run([script], sheet_text([2], [3], [[0]])) == (b"refused 5\n", b"", 1))
        test("script on 32 cafés and a surplus: 1", run([script], sheet_text([33], [1] * 32, [[0] * 32])) == (b"refused 10\n", b"", 1))
        test("script on a closed café: 0", run([script], sheet_text([3], [2, 0], [[-1, 1]]))[2] == 0)
        test("script on closed cafés alone: 1", run([script], sheet_text([3], [0], [[0]])) == (b"refused 11\n", b"", 1))
        test("script on an empty text: 1", run([script], b"") == (b"refused 9 0\n", b"", 1))
        test("script on a directory: 2", run_on_directory(script) == (b"", CANNOT_READ, 2))
        test("script with its input closed: 2", run_with_closed(script, "<&-") == (b"", CANNOT_READ, 2))
        test("script with a full output: 2", run_on_full_device(script) == (None, CANNOT_WRITE, 2))
        test("script with its output closed: 2", run_with_closed(script, ">&-", WORKED) == (b"", CANNOT_WRITE, 2))
        test("script into a closed pipe", run_on_closed_pipe(script) == (None, b"", -signal.SIGPIPE))


# ---- the examples, and the script that checks plans


def examples():
    for path in sorted(EXAMPLES.glob("*.sheet")):
        sheet, plan = path.read_bytes(), path.with_suffix(".plan").read_bytes()
        test(f"example {path.stem}", answers(sheet, plan))
        accepted = what_is_wrong(sheet, plan) is None
        test(f"example {path.stem}: check_plan accepts plans alone", accepted == plan.startswith(b"total"))
        status, first = (0, b"the plan is least: total ") if accepted else (1, b"wrong: ")
        output, errors, ended = run([sys.executable, EXAMPLES / "check_plan.py", path, path.with_suffix(".plan")])
        test(f"example {path.stem}: check_plan says so", output.startswith(first) and (errors, ended) == (b"", status))


def edited(total=0, u=(0, 0, 0), v=(0, 0, 0, 0), bags=(), lanes=None):
    """The plan of the example island, with numbers added to its total, its prices and the bags on lanes, or with these lanes."""
    plan = {(1, 2): 25, (1, 3): 10, (1, 4): 25, (2, 1): 40, (2, 3): 5, (3, 3): 35}
    for lane, more in dict(bags).items():
        plan[lane] = plan.get(lane, 0) + more
    lanes = lanes or [(i, j, bags) for (i, j), bags in sorted(plan.items()) if bags != 0]
    roasteries = [price + more for price, more in zip((0, 40, -130), u)]
    cafes = [price + more for price, more in zip((80, 150, 240, 190), v)]
    return plan_text(20_950 + total, 3, roasteries, cafes, lanes)


def with_bags(lanes, bags):
    """The lanes with other bags on some, in order; those with none are left out."""
    return [(i, j, carried) for (i, j), carried in sorted({**lanes, **dict(bags)}.items()) if carried != 0]


def wrong_plans():
    """check_plan names what is wrong with a plan that was edited."""
    island = (EXAMPLES / "island.sheet").read_bytes()
    # Roasteries 1 and 2 each move a bag, between cafés 1 and 3: bags add up as before, and the plan costs 230 more.
    circle = {(1, 1): 1, (1, 3): -1, (2, 1): -1, (2, 3): 1}
    right = edited()
    cases = [
        ("unedited", right, None),
        ("a bag more", edited(bags={(2, 1): 1}), "roastery 2 has 45 bags on the sheet and 46 in the plan"),
        ("a bag moved to another café", edited(bags={(2, 1): -1, (2, 2): 1}), "café 1 has 40 bags on the sheet and 39 in the plan"),
        ("a bag moved to another roastery", edited(bags={(1, 4): -1, (3, 4): 1}), "roastery 3 has 35 bags on the sheet and 36 in the plan"),
        ("a bag less", edited(bags={(1, 4): -1}), "café 4 has 25 bags on the sheet and 24 in the plan"),
        ("a circle of bags moved", edited(bags=circle), "the bags cost 21180, and the total is 20950"),
        ("a circle of bags moved, and the total", edited(total=230, bags=circle), "lane 1 1 carries bags and costs 230 more than its prices"),
        ("a dearer total", edited(total=1), "the bags cost 20950, and the total is 20951"),
        ("a cheaper total", edited(total=-1), "the bags cost 20950, and the total is 20949"),
        ("a price raised", edited(v=(0, 0, 0, 1)), "lane 1 4 costs 1 less than its prices"),
        ("a price lowered", edited(u=(0, 0, -1)), "lane 3 3 carries bags and costs 1 more than its prices"),
        ("all prices shifted", edited(u=(5, 5, 5), v=(-5, -5, -5, -5)), "the price of roastery 1 is 5"),
        ("a lane twice", edited(lanes=[(1, 2, 20), (1, 2, 5)]), "lane 1 2 is out of order"),
        ("lanes out of order", edited(lanes=[(2, 1, 40), (1, 2, 25)]), "lane 1 2 is out of order"),
        ("a lane of no bags", edited(lanes=[(1, 1, 0), (1, 2, 25)]), "lane 1 1 carries no bag"),
        ("a lane off the sheet", edited(lanes=[(1, 5, 25)]), "lane 1 5 is not on the sheet"),
        ("a roastery missing", right.replace(b"roasteries 3\n0\n", b"roasteries 2\n"), "'roasteries 2' where section roasteries should begin"),
        ("minus 0", right.replace(b"\n0\n", b"\n-0\n"), "'-0' in section roasteries"),
        ("a leading 0", right.replace(b"\n150\n", b"\n0150\n"), "'0150' in section cafes"),
        ("cut in the lanes", right[:-7], "'' in section lanes"),
        ("no last line end", right[:-1], "the plan does not end with the line end after its lanes"),
        ("a line more", right + b"\n", "the plan does not end with the line end after its lanes"),
        ("nothing", b"", "'' where section total should begin"),
    ]
    for name, plan, what in cases:
        said = what_is_wrong(island, plan)
        test(f"check_plan, {name}: {said}", said == what)
    for path in sorted(path for path in CASES.glob("*.in") if path.with_suffix(".out").read_bytes().startswith(b"refused")):
        said = what_is_wrong(path.read_bytes(), WORKED_PLAN)
        test(f"check_plan, the sheet of case {path.stem}: {said}", said is not None)


def wrong_plans_with_surplus():
    """check_plan names what is wrong with the bags that roasteries keep. In the example surplus the first keeps two."""
    sheet = (EXAMPLES / "surplus.sheet").read_bytes()
    lanes = {(1, 1): 16, (1, 3): 6, (2, 2): 14, (2, 3): 4}

    def said(total=3_850, u=(0, -15), v=(95, 100, 120), bags=()):
        return what_is_wrong(sheet, plan_text(total, 2, u, v, with_bags(lanes, bags)))

    dear = {(1, 3): 8, (2, 3): 2}
    cases = [
        ("unedited", said(), None),
        ("a bag more than a roastery has", said(bags={(2, 3): 5}), "roastery 2 has 18 bags on the sheet and 19 in the plan"),
        ("a bag that is not wanted", said(bags={(1, 3): 7}), "café 3 has 10 bags on the sheet and 11 in the plan"),
        ("a bag more kept", said(bags={(1, 3): 5}), "café 3 has 10 bags on the sheet and 9 in the plan"),
        ("the other roastery keeps them", said(total=3_880, bags=dear), "roastery 2 keeps bags, and its price is 15 below the greatest"),
        ("so it does, at the old total", said(bags=dear), "the bags cost 3880, and the total is 3850"),
        ("a price above the keeper's", said(u=(0, 1), v=(95, 84, 104)), "lane 1 3 carries bags and costs 16 more than its prices"),
    ]
    for name, what, expected in cases:
        test(f"check_plan with a surplus, {name}: {what}", what == expected)
    # No lane costs less than its prices or carries bags at another cost; yet roastery 2 should send the bag.
    one_bag = sheet_text([1, 1], [1], [[5], [3]])
    what = what_is_wrong(one_bag, plan_text(5, 0, [0, -2], [5], [(1, 1, 1)]))
    test(f"check_plan with a surplus, the dear lane used: {what}", what == "roastery 2 keeps bags, and its price is 2 below the greatest")


def wrong_plans_that_earn():
    """check_plan names what is wrong with a plan whose total is below 0. In the example sacks the first roastery keeps four bags."""
    sheet = (EXAMPLES / "sacks.sheet").read_bytes()
    lanes = {(1, 1): 12, (1, 3): 2, (2, 2): 9, (2, 3): 5}

    def said(total=-375, v=(25, -5, -30), bags=()):
        return what_is_wrong(sheet, plan_text(total, 2, (0, -30), v, with_bags(lanes, bags)))

    # The lane that earns most goes full, and roastery 1 takes over two bags for café 2; or roastery 2 keeps the four bags.
    filled, kept = {(1, 2): 2, (1, 3): 0, (2, 2): 7, (2, 3): 7}, {(1, 3): 6, (2, 3): 1}
    cases = [
        ("unedited", said(), None),
        ("the total without its minus", said(total=375), "the bags cost -375, and the total is 375"),
        ("a cent more", said(total=-374), "the bags cost -375, and the total is -374"),
        ("a cent more earned", said(total=-376), "the bags cost -375, and the total is -376"),
        ("a total of minus 0", said(total="-0"), "'-0' in section total"),
        ("a total with a leading 0", said(total="-0375"), "'-0375' in section total"),
        ("a bag more on a lane that earns", said(total=-435, bags={(2, 3): 6}), "roastery 2 has 14 bags on the sheet and 15 in the plan"),
        ("a bag that earns and is not wanted", said(total=-405, bags={(1, 3): 3}), "café 3 has 7 bags on the sheet and 8 in the plan"),
        ("the best lane filled", said(total=-285, bags=filled), "lane 1 2 carries bags and costs 45 more than its prices"),
        ("so it is, at the old total", said(bags=filled), "the bags cost -285, and the total is -375"),
        ("the other roastery keeps bags", said(total=-255, bags=kept), "roastery 2 keeps bags, and its price is 30 below the greatest"),
        ("a price raised", said(v=(25, -5, -29)), "lane 1 3 costs 1 less than its prices"),
        ("a price lowered", said(v=(25, -6, -30)), "lane 2 2 carries bags and costs 1 more than its prices"),
        ("prices of the other sign", said(v=(25, 5, 30)), "lane 1 3 costs 60 less than its prices"),
    ]
    for name, what, expected in cases:
        test(f"check_plan on a plan that earns, {name}: {what}", what == expected)
    # A sheet that is none, or is outside the limits, has no plan that is right.
    for cost in (b"-0", b"-025", b"--25", b"-", b"25-", b"-1000001", b"1000001"):
        what = what_is_wrong(sheet.replace(b"\n25 ", b"\n%s " % cost), plan_text(-375, 2, (0, -30), (25, -5, -30), with_bags(lanes, {})))
        expected = "a cost is outside the limits" if cost.endswith(b"1000001") else f"'{cost.decode()} 40 -30' in section cost"
        test(f"check_plan on a cost {cost.decode()}: {what}", what == expected)


def wrong_plans_with_zeros():
    """check_plan names what is wrong with the prices and lanes of parties at 0. In the example closed these are the first roastery and the
    second café, and the second roastery keeps seven bags."""
    sheet = (EXAMPLES / "closed.sheet").read_bytes()
    lanes = {(2, 1): 12, (2, 3): 1, (3, 3): 14}

    def said(total=2_300, u=(-35, 0, -35), v=(95, 70, 110), bags=()):
        return what_is_wrong(sheet, plan_text(total, 1, u, v, with_bags(lanes, bags)))

    cases = [
        ("unedited", said(), None),
        ("a bag from the empty roastery", said(bags={(1, 1): 1, (2, 1): 11}), "roastery 1 has 0 bags on the sheet and 1 in the plan"),
        ("a bag to the closed café", said(bags={(2, 2): 1}), "café 2 has 0 bags on the sheet and 1 in the plan"),
        ("prices from the first roastery on", said(u=(0, 35, 0), v=(60, 35, 75)), "the price of roastery 2 is 35"),
        ("a price of the empty roastery that is too high", said(u=(-34, 0, -35)), "lane 1 1 costs 1 less than its prices"),
        ("one that is too low", said(u=(-36, 0, -35)), "roastery 1 has nothing, and its price is -36 where -35 follows"),
        ("none at all", said(u=(0, 0, -35)), "lane 1 1 costs 35 less than its prices"),
        ("a price of the closed café that is too high", said(v=(95, 71, 110)), "lane 2 2 costs 1 less than its prices"),
        ("one that is too low, too", said(v=(95, 69, 110)), "café 2 wants nothing, and its price is 69 where 70 follows"),
        ("none at all, too", said(v=(95, 0, 110)), "café 2 wants nothing, and its price is 0 where 70 follows"),
        ("the other roastery keeps bags", said(2_545, bags={(2, 3): 8, (3, 3): 7}), "roastery 3 keeps bags, and its price is 35 below the greatest"),
    ]
    for name, what, expected in cases:
        test(f"check_plan with zeros, {name}: {what}", what == expected)
    # The empty roasteries are priced by their lanes to closed cafés too, and by what bags are worth that are kept.
    cafe_first = sheet_text([1, 0], [1, 0], [[0, 5], [10, -3]])
    for u, v, expected in (
        ([0, -8], [0, 5], None),
        ([0, 10], [0, -13], "café 2 wants nothing, and its price is -13 where 5 follows"),
        ([0, 10], [0, 5], "lane 2 2 costs 18 less than its prices"),
    ):
        what = what_is_wrong(cafe_first, plan_text(0, 0, u, v, [(1, 1, 1)]))
        test(f"check_plan with zeros, prices {u} and {v}: {what}", what == expected)
    for kept, price, expected in (
        (0, 3, None),
        (0, 0, "roastery 2 has nothing, and its price is 0 where 3 follows"),
        (1, 0, None),
        (1, 3, "roastery 1 keeps bags, and its price is 3 below the greatest"),
        (1, -1, "roastery 2 has nothing, and its price is -1 where 0 follows"),
    ):
        what = what_is_wrong(sheet_text([2 + kept, 0], [2], [[1], [4]]), plan_text(2, 0, [0, price], [1], [(1, 1, 2)]))
        test(f"check_plan with zeros, {kept} bags kept and a price of {price}: {what}", what == expected)


def main():
    groups = [stored_cases, every_place, every_minus, small_sheets, large_sheets, totals, long_texts, bytes_read, slow_input, failing_streams]
    groups += [script_with_status, examples, wrong_plans, wrong_plans_with_surplus, wrong_plans_that_earn, wrong_plans_with_zeros]
    if not os.access(PANEL, os.X_OK):
        print(f"no program {os.path.relpath(PANEL, ROOT)}: build it first")
        groups = []
        test("the program is there", False)
    for group in groups:
        try:
            group()
        except Exception as error:  # whatever breaks a group, the others run and the last line is printed
            test(f"{group.__name__}: {error!r}", False)
    print(f"{passed} passed, {failed} failed")
    sys.exit(failed > 0)


if __name__ == "__main__":
    main()
