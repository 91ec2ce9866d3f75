#!/usr/bin/env python3
"""Says how the servers of a cluster stand.

    cluster/status.py [--servers 127.0.0.1:4761,127.0.0.1:4762,127.0.0.1:4763] [--wait SECONDS]

The status is 0 where more than half of them agree on who leads; with --wait so long is waited for that.
"""

import argparse
import asyncio
import sys
import time

sys.dont_write_bytecode = True  # of etcd.py, which would be left in the tree

from etcd import Connection, Lost


async def stand_of(address):
    """Who leads as a server knows it, if it knows, and a line about it."""
    connection = Connection(address)
    try:
        told = await connection.status()
        leader = told.get("leader")  # left out where the server knows nobody who leads
        if leader is None:
            return None, f"{address} knows nobody who leads"
        leads = "leads" if leader == told["header"]["member_id"] else "follows"
        _, line = await connection.last()
        return leader, f"{address} {leads}: revision {told['header']['revision']}, the last line is {line or 'none'}, " \
            f"{int(told['dbSize']) // 1024} KiB"
    except Lost as lost:
        return None, f"{address} can't be used: {lost}"
    finally:
        connection.close()


async def run(addresses, until):
    while True:
        stands = await asyncio.gather(*map(stand_of, addresses))
        leaders = [leader for leader, _ in stands if leader]
        is_well = len(set(leaders)) == 1 and 2 * len(leaders) > len(addresses)
        if is_well or time.monotonic() > until:
            print(*(text for _, text in stands), sep="\n")
            return is_well
        await asyncio.sleep(0.3)


def main():
    words = argparse.ArgumentParser(description=__doc__, formatter_class=argparse.RawDescriptionHelpFormatter)
    words.add_argument("--servers", default="127.0.0.1:4761,127.0.0.1:4762,127.0.0.1:4763",
                       help="HOST:PORT of each server, with commas between")
    words.add_argument("--wait", type=float, default=0, help="how many seconds it may take until they agree")
    asked = words.parse_args()
    sys.exit(0 if asyncio.run(run(asked.servers.split(","), time.monotonic() + asked.wait)) else 1)


if __name__ == "__main__":
    main()
