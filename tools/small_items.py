#!/usr/bin/env python3
"""Answers `least` and `weigh` by an enumeration of all plans of small random items.

It knows nothing of programmes: costs and faults are worked out from the definitions in docs/ITEM_RULES.md, and the least
cost is the lowest over all plans with amounts up to one above the sum of the demands, each with and without a setup.

    tools/small_items.py --cases --seed S --runs N

prints the calls and their answers as rows of a test's table. Without `--cases` a program is run on each call; it has to take the
two verbs, which `lotaudit` does not do yet."""
import argparse
import itertools
import random
import subprocess
import sys

WORDS = {1: "an amount without a setup", 2: "stock below zero", 3: "stock below zero after the last row"}


def verdict(backlog, rows, plan):
    """The cost of a plan, or the cause and period of its first fault."""
    stock = 0
    cost = 0
    for period, ((setup, unit, hold, short, demand), (amount, set_up)) in enumerate(zip(rows, plan)):
        stock += amount - demand
        if amount > 0 and not set_up:
            return None, (1, period)
        if stock < 0 and not backlog:
            return None, (2, period)
        if stock < 0 and period == len(rows) - 1:
            return None, (3, period)
        cost += (setup if set_up else 0) + unit * amount + hold * max(stock, 0) + short * max(-stock, 0)
    return cost, None


def least(backlog, rows):
    """The lowest cost of all plans that are admitted."""
    most = sum(row[4] for row in rows) + 1
    lots = [(amount, set_up) for amount in range(most + 1) for set_up in (False, True)]
    costs = (verdict(backlog, rows, plan)[0] for plan in itertools.product(lots, repeat=len(rows)))
    return min(cost for cost in costs if cost is not None)


def draw_rows(rng):
    periods = rng.choice([0, 1, 2, 2, 3, 3])
    top = {0: 3, 1: 6, 2: 4, 3: 3}[periods]
    dear = rng.choice([3, 12, 40])
    return [
        (rng.randint(0, dear), rng.randint(0, 4), rng.randint(0, 4), rng.randint(0, 4), rng.randint(0, top))
        for _ in range(periods)
    ]


def draw_plan(rng, rows):
    plan = []
    for row in rows:
        amount = rng.choice([0, 0, row[4], row[4] + 1, rng.randint(0, 9)])
        plan.append((amount, rng.random() < 0.85 if amount else rng.random() < 0.3))
    return plan


def lot_word(lot):
    amount, set_up = lot
    if set_up:
        return str(amount)
    return f"{amount}!" if amount else "-"


def draw_call(rng):
    """The words of a call and the line that answers it."""
    backlog = rng.random() < 0.5
    rows = draw_rows(rng)
    words = ["1" if backlog else "0", "0", "-"] + [",".join(map(str, row)) for row in rows]
    if rng.random() < 0.5:
        return ["least"] + words, f"least {least(backlog, rows)}\n"
    plan = draw_plan(rng, rows)
    cost, fault = verdict(backlog, rows, plan)
    words = ["weigh"] + words + ["plan"] + [lot_word(lot) for lot in plan]
    if fault is None:
        return words, f"cost {cost}\n"
    cause, period = fault
    return words, f"fault {cause}, period {period}, depth 0: {WORDS[cause]}\n"


def main():
    parser = argparse.ArgumentParser(description=__doc__.splitlines()[0])
    parser.add_argument("--seed", type=int, default=1)
    parser.add_argument("--runs", type=int, default=200)
    parser.add_argument("--program", default="crates/lotaudit/out/lotaudit")
    parser.add_argument("--cases", action="store_true")
    args = parser.parse_args()
    rng = random.Random(args.seed)
    agreed = 0
    for _ in range(args.runs):
        words, line = draw_call(rng)
        if args.cases:
            answer = line.replace("\n", "\\n")
            print(f'        ("{" ".join(words)}", "{answer}"),')
            continue
        ran = subprocess.run([args.program] + words, capture_output=True, text=True)
        if (ran.returncode, ran.stdout) == (0, line):
            agreed += 1
        else:
            print(f"differs: {' '.join(words)}\n  enumerated {line!r}\n  answered {ran.stdout!r} {ran.stderr!r} {ran.returncode}")
    if not args.cases:
        print(f"{agreed} of {args.runs} agreed")
        sys.exit(0 if agreed == args.runs else 1)


main()
