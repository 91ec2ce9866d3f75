#!/usr/bin/env python3
"""Prints the command lines of a busy morning with made-up flights, up to 05:45: nine regulations, and as many flights as are
asked for (900 if not given). It is the same each time.

    python3 examples/busy.py [FLIGHTS] > busy.jsonl
    ./casa summary --day 2025-06-24 < busy.jsonl
"""

import json
import random
import sys

DICE = random.Random(24)
HOUR, NOW = 3600, 5 * 3600 + 45 * 60
AIRLINES = "KLM DLH BAW AFR EZY RYR WZZ SWR AUA SAS TAP IBE VLG TRA EWG LOT FIN BEL".split()
# Where flights go to, how many of them, and about when they come over it.
TO = {"EHAM": (22, 8.2, 1.1), "EGLL": (19, 8.4, 1.2), "LFPG": (14, 8.0, 1.0), "EDDF": (15, 8.4, 1.0), "LEPA": (13, 9.0, 1.1),
      "LSZH": (8, 8.0, 1.2), "EKCH": (9, 8.0, 1.5)}
# What they come over before that, and how many minutes before.
OVER = {"EHAM": [("EDYYB3EH", 21), ("EDYYSOLN", 38), ("LFEEKHR", 52)], "EGLL": [("EGTTLON", 14), ("EDYYB3EH", 34)],
        "LFPG": [("LFEEKHR", 18), ("EDUUFFM5", 41)], "EDDF": [("EDUUFFM5", 17), ("EDYYSOLN", 29)],
        "LEPA": [("LECBLVL", 22), ("LFMMRAWM", 43), ("LFEEKHR", 88)], "LSZH": [("EDUUFFM5", 24), ("LFEEKHR", 33)],
        "EKCH": [("EDYYSOLN", 57)]}
# Each regulation with its location, its begin and end in hours, and its rates, each for as long as the others.
REGULATIONS = [("EHAMA24M", "EHAM", 20 / 3, 10, [45, 54, 54]), ("EGLLA24M", "EGLL", 19 / 3, 31 / 3, [36, 46]),
               ("LFPGA24M", "LFPG", 20 / 3, 28 / 3, [33, 39]), ("EDDFA24M", "EDDF", 7, 29 / 3, [38, 46]),
               ("LEPAA24", "LEPA", 22 / 3, 11, [32, 33]), ("LSZHA24", "LSZH", 19 / 3, 10, [18]),
               ("YYB3EH24", "EDYYB3EH", 19 / 3, 9, [27, 33]), ("LFEKHR24", "LFEEKHR", 6, 9, [36, 40, 46]),
               ("UUFFM24M", "EDUUFFM5", 6, 9, [26, 32])]


def say(**call):
    print(json.dumps(call, separators=(",", ":")))


def moment(hours):
    return round(hours * 60) * 60


def opened(reg, loc, begin, end, rates):
    edges = [moment(begin + (end - begin) * n / len(rates)) for n in range(len(rates) + 1)]
    periods = [{"from": one, "to": other, "rate": rate} for one, other, rate in zip(edges, edges[1:], rates)]
    say(cmd="open", reg=reg, loc=loc, periods=periods)


def plans(count):
    """Plans, each with the time at which it is filed."""
    keys = set()
    while len(keys) < count:
        key = f"{DICE.choice(AIRLINES)}{DICE.randrange(1, 9999)}{DICE.choice(['', '', '', 'A', 'K'])}"
        goal = DICE.choices(list(TO), [weight for weight, _, _ in TO.values()])[0]
        over, taxi = int(DICE.gauss(TO[goal][1], TO[goal][2]) * HOUR), DICE.choice([480, 600, 720, 900, 1080])
        via = [{"loc": loc, "eto": over - before * 60 - DICE.randrange(300)} for loc, before in OVER[goal] if DICE.random() < 0.5]
        via = sorted(via, key=lambda crossing: crossing["eto"]) + [{"loc": goal, "eto": over}]
        eobt = (via[0]["eto"] - taxi - DICE.randrange(900, 4500)) // 300 * 300
        if key in keys or not 4.5 * HOUR < eobt < 11 * HOUR:
            continue
        keys.add(key)
        yield min(4 * HOUR + int(DICE.expovariate(1 / 1500)), NOW - 60, eobt), {"key": key, "eobt": eobt, "taxi": taxi, "via": via}


def main():
    filings = sorted(plans(int(sys.argv[1]) if len(sys.argv) > 1 else 900), key=lambda filing: filing[0])
    clock, keys = 4 * HOUR, []
    say(cmd="tick", at=clock)
    for regulation in REGULATIONS:
        opened(*regulation)
    for at, plan in filings:
        while clock + 60 <= at:
            clock += 60
            say(cmd="tick", at=clock)
        say(cmd="file", **plan)
        keys.append(plan["key"])
        if DICE.random() < 0.04:
            say(cmd="revise", key=DICE.choice(keys))
    while clock < NOW:
        clock += 60
        say(cmd="tick", at=clock)
        say(cmd="revise", key=DICE.choice(keys))
    say(cmd="exempt", key=keys[7])


if __name__ == "__main__":
    main()
