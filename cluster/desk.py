#!/usr/bin/env python3
"""A desk of a cluster: sends the command lines of standard input, and prints the reply to each, in their order.

    cluster/desk.py [--servers 127.0.0.1:4761,127.0.0.1:4762,127.0.0.1:4763] [--name KLM] [--session S] < lines > replies

A line is sent again until the log has it, and stands there once. So it is where the desk itself is begun again: give it the
same name, the session that it says on standard error, and the same lines from the first one on. Those that stand are not
entered a second time, and their replies come again. Lines of one session stand in the log in their order.
"""

import argparse
import asyncio
import os
import re
import secrets
import sys
import threading

sys.dont_write_bytecode = True  # of etcd.py, which would be left in the tree

from etcd import REPLIES, Gone, Link, Lost, Refused, Watch, enter

AHEAD = 1000  # lines that are sent before they are replied to
BATCH = 32  # lines that are entered at a time
LONGEST = 65_536  # bytes of a line; of a longer one so many and one more are sent, which is as much of a fault
WORD = re.compile(r"[A-Za-z0-9_-]{1,64}\Z")


class Failed(Exception):
    """The desk can't go on."""


class Desk:
    def __init__(self, words):
        self.name, self.session, self.link = words.name, words.session, Link(words.servers.split(","), self.say)
        self.lines, self.sent, self.wanted = asyncio.Queue(AHEAD), asyncio.Queue(AHEAD), None

    def say(self, text):
        print(f"desk {self.name}: {text}", file=sys.stderr, flush=True)

    def read(self, loop):
        """Takes the lines of standard input, in a thread that may wait for them."""
        while line := sys.stdin.buffer.readline():
            asyncio.run_coroutine_threadsafe(self.lines.put(line), loop).result()
        asyncio.run_coroutine_threadsafe(self.lines.put(b""), loop).result()

    async def send(self):
        """Puts the lines into the log, those that are there together, and no more before these stand: so they keep their order."""
        number = 0
        while line := await self.lines.get():
            batch = []
            while line:
                number, line = number + 1, line.removesuffix(b"\n")[:LONGEST + 1]
                batch.append((f"{self.name}/{self.session}.{number}", line))
                line = None if self.lines.empty() or len(batch) == BATCH else self.lines.get_nowait()
            for (name, own), (revision, other) in zip(batch, await enter(self.link, batch)):
                if other not in (None, own):
                    raise Failed(f"line {name} has been another one in this session: nothing more is sent")
                await self.sent.put((revision, name))
            if line == b"":
                break
        await self.sent.put(None)

    async def receive(self, connection):
        """Prints the replies. They come into the log in the order of their lines."""
        watch, silences = None, 0
        while True:
            self.wanted = self.wanted or await self.sent.get()
            if self.wanted is None:
                return
            revision, name = self.wanted
            watch = watch or Watch(connection, f"{REPLIES}{self.name}/", revision)
            entry = await watch.next()
            if entry is None:
                silences = silences + 1 if (await connection.get([REPLIES + name]))[0] else 0
                if silences > 1:
                    raise Lost("it does not tell what there is")
            elif entry.key == REPLIES + name:
                sys.stdout.buffer.write(entry.value + b"\n")
                sys.stdout.buffer.flush()
                self.wanted, silences = None, 0

    async def run(self):
        self.say(f"session {self.session}")
        threading.Thread(target=self.read, args=[asyncio.get_running_loop()], daemon=True).start()
        sending, receiving = asyncio.create_task(self.send()), asyncio.create_task(self.link.keep(self.receive))
        done, _ = await asyncio.wait([sending, receiving], return_when=asyncio.FIRST_EXCEPTION)
        for task in done:
            task.result()


def word(text):
    if not WORD.match(text):
        raise argparse.ArgumentTypeError("1 to 64 letters, digits, hyphens and underlines")
    return text


def main():
    words = argparse.ArgumentParser(description=__doc__, formatter_class=argparse.RawDescriptionHelpFormatter)
    words.add_argument("--servers", default="127.0.0.1:4761,127.0.0.1:4762,127.0.0.1:4763",
                       help="HOST:PORT of each server, with commas between")
    words.add_argument("--name", default="desk", type=word, help="the desk's name")
    words.add_argument("--session", default=secrets.token_hex(6), type=word, help="the session of before that is begun again")
    asked, status = words.parse_args(), 0
    try:
        asyncio.run(Desk(asked).run())
    except (Failed, Gone, Refused) as fault:
        print(f"desk {asked.name}: {fault}", file=sys.stderr)
        status = 1
    except BrokenPipeError:
        status = 1
    except KeyboardInterrupt:
        status = 130
    os._exit(status)  # the thread may be waiting for a line


if __name__ == "__main__":
    main()
