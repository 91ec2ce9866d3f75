#!/usr/bin/env python3
"""A clock of a cluster: moves casa's clock to each second of a day, from its midnight UTC, for which it waits, to the end of the
day after it.

    cluster/clock.py --day 2025-06-01 [--every 1] [--servers 127.0.0.1:4761,127.0.0.1:4762,127.0.0.1:4763]

One runs beside each replica, and all make one tick of each second: it is entered under its moment, and so stands in the log once.
One that comes late, when the clock was moved on, is refused as any tick to a time of before.
"""

import argparse
import asyncio
import datetime
import os
import sys
import time

sys.dont_write_bytecode = True  # of etcd.py, which would be left in the tree

from etcd import Link, enter

LAST = 172_799  # the last moment of a day


def say(text):
    print(f"clock: {text}", file=sys.stderr, flush=True)


def midnight_of(day):
    return int(datetime.datetime.strptime(day, "%Y-%m-%d").replace(tzinfo=datetime.timezone.utc).timestamp())


async def run(midnight, every, link):
    """Sends a tick for the present second, and then for each one that is a multiple of what was asked for."""
    moment = max(0, int(time.time()) - midnight) // every * every
    if moment > LAST:
        say("the day is over")
    while moment <= LAST:
        await asyncio.sleep(max(0, midnight + moment - time.time()))
        line = b'{"cmd":"tick","at":%d}' % moment
        await enter(link, [(f"clock/{midnight}.{moment}", line)])
        moment = max(moment + every, (int(time.time()) - midnight) // every * every)


def main():
    words = argparse.ArgumentParser(description=__doc__, formatter_class=argparse.RawDescriptionHelpFormatter)
    words.add_argument("--day", required=True, type=midnight_of, help="the day, as 2025-06-01")
    words.add_argument("--every", type=int, default=1, choices=range(1, 3601), metavar="SECONDS", help="1 to 3600; 1 if not given")
    words.add_argument("--servers", default="127.0.0.1:4761,127.0.0.1:4762,127.0.0.1:4763",
                       help="HOST:PORT of each server, with commas between")
    words.add_argument("--folder", help=argparse.SUPPRESS)  # by which cluster/down knows its own
    asked = words.parse_args()
    try:
        asyncio.run(run(asked.day, asked.every, Link(asked.servers.split(","), say)))
    except KeyboardInterrupt:
        os._exit(130)


if __name__ == "__main__":
    main()
