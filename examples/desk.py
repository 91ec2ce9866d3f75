#!/usr/bin/env python3
"""A desk over a connection: opens a regulation, files three flights under a name, and draws the regulation's list.

    ./casa serve --port 4750 &
    python3 examples/desk.py 4750 KLM
"""
import json
import socket
import sys

BEGIN, END = 36000, 37200  # 10:00 to 10:20; the picture has a character for each 20 seconds


def picture(row):
    """A flight's line: `o` where it is planned over the location, `*` where its slot lets it be."""
    planned, given = ((row[time] - BEGIN) // 20 for time in ("eto", "cto"))
    way = "o" + "-" * (given - planned - 1) if given > planned else ""
    return f"{row['key']:10} |{' ' * planned}{way}*  {row['kind']}"


port, name = int(sys.argv[1]), sys.argv[2] if len(sys.argv) > 2 else "KLM"
calls = [{"cmd": "open", "reg": "R1", "loc": "LA", "periods": [{"from": BEGIN, "to": END, "rate": 30}]}]
for number, eto in enumerate((36010, 36030, 36400), 1):
    calls.append({"cmd": "file", "key": f"{name}{number}", "eobt": 30000, "taxi": 600, "via": [{"loc": "LA", "eto": eto}]})
calls.append({"cmd": "list", "reg": "R1"})
with socket.create_connection(("127.0.0.1", port), timeout=10) as desk:
    desk.sendall("".join(json.dumps(call) + "\n" for call in calls).encode())
    desk.shutdown(socket.SHUT_WR)  # no more calls: casa answers these in their order, and closes
    replies = [json.loads(line) for line in desk.makefile("rb")]
if len(replies) < len(calls):
    sys.exit(f"{len(replies)} of {len(calls)} calls were answered")
for call, reply in zip(calls, replies):
    if "refused" in reply:
        print(f"{call['cmd']} {call.get('key', 'R1')}: {reply['refused']}")
print(f"{'R1':10} |10:00{'10:10':>30}{'10:20':>30}", *map(picture, replies[-1]["list"]["rows"]), sep="\n")
