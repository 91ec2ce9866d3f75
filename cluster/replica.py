#!/usr/bin/env python3
"""A replica of casa: answers the command lines of the log by `casa run --journal`, and sees to it that each reply stands in the
log once.

    cluster/replica.py --name 1 --servers 127.0.0.1:4761,127.0.0.1:4762,127.0.0.1:4763 --program out/casa --journal day.journal

The log is etcd. The lines are the values below casa/lines/, in the order of their revisions. The reply to the line
casa/lines/NAME is casa/replies/NAME; a replica puts it there if nothing stands there yet, and else compares it. Where the two
differ it ends, with status 3. Replies are put in the order of their lines.

How far it has come is known by the journal alone: of the lines so many calls are in it, and casa tells which lines are calls.
FILE.mark beside it saves to count from the first line on. docs/CLUSTER.md says why this stands any crash. SIGTERM ends it when
what was handed to casa is answered.
"""

import argparse
import asyncio
import collections
import contextlib
import datetime
import itertools
import json
import os
import pathlib
import re
import signal
import sys

sys.dont_write_bytecode = True  # of the modules beside it, which would be left in the tree

from etcd import LINES, REPLIES, Gone, Link, Lost, Refused, Watch
from sessions import Ended, Session, Twin

AHEAD = 2048  # lines that are read before their replies stand in the log
MOST = 64 << 20  # bytes of these replies
BATCH = 64  # replies that are put at a time
LONGEST_BATCH = 1 << 20  # bytes of these, but for the first
PATIENCE = 0.03  # seconds for which replicas leave a reply to the one that put the last
LONGEST = 65_536  # bytes of a line
NUMBER = re.compile(rb'"n":(\d+)')

# A line, by its revision and its name, the reply that was made to it here, and how many of the lines up to it are calls.
Answer = collections.namedtuple("Answer", "revision name reply calls")


class Wrong(Exception):
    """Something differs that never may: a person has to look."""


def fault_of(line):
    """What is replied to an entry that is no line, and with which casa's session would end, or have two replies."""
    if len(line) > LONGEST:
        return b'{"fault":"LineTooLong"}'
    return b'{"fault":"NotJson"}' if b"\n" in line else None


class Replica:
    def __init__(self, words):
        self.name, self.program, self.journal = words.name, words.program, words.journal
        self.link = Link(words.servers.split(","), self.say)
        self.session = self.twin = self.cluster = None
        self.kept = 0  # how many calls the journal had when it was opened
        self.read = (0, "")  # revision and name of the last line that was read
        self.silences = 0  # how often nothing came though there was something
        self.calls = 0  # how many of the lines that were answered are calls
        self.waiting = collections.deque()  # lines that were handed to casa, each with its reply where casa gives none
        self.own = collections.deque()  # answers that are not in the log yet, as far as is known here
        self.size = 0  # how many bytes these have
        self.is_writer = True  # whether the last reply was put into the log here
        self.mark = None  # the last answer that is in the log, with all before it
        self.news = asyncio.Condition()

    def say(self, text):
        now = datetime.datetime.now(datetime.timezone.utc).strftime("%Y-%m-%dT%H:%M:%SZ")
        print(f"{now} replica {self.name}: {text}", file=sys.stderr, flush=True)

    async def until(self, holds):
        async with self.news:
            await self.news.wait_for(holds)

    async def tell(self):
        async with self.news:
            self.news.notify_all()

    # How it begins.

    async def begin(self):
        self.session, self.kept = await Session.opened(self.program, self.journal)
        print(self.session.told(), file=sys.stderr, flush=True)
        self.cluster = (await self.link.keep(lambda connection: connection.status()))["header"]["cluster_id"]
        with contextlib.suppress(OSError, ValueError, KeyError, TypeError):
            mark = json.loads(pathlib.Path(f"{self.journal}.mark").read_text())
            if mark["cluster"] == self.cluster and mark["calls"] <= self.kept:
                self.read, self.calls = (mark["revision"], mark["name"]), mark["calls"]
        if self.calls < self.kept:
            self.twin = await Twin.begin(self.program, self.journal, self.calls)
        self.say(f"begins behind {self.read[1] or 'nothing'}, with {self.calls} of {self.kept} calls")

    # Lines are answered.

    async def feed(self, connection):
        """Hands lines to casa. Those whose calls the journal has are answered by a twin: it gives the replies that casa gave."""
        last = await connection.last()
        watch = await self.watch(connection, last)
        while True:
            await self.until(lambda: len(self.own) + len(self.waiting) < AHEAD and self.size < MOST)
            if self.calls < self.kept and self.read == last:
                raise Wrong(f"the journal has {self.kept} calls, and the log has {self.calls}: they are not of the same day")
            entry = await watch.next()
            if entry is None:
                await self.look_after(connection)
                continue
            if not entry.is_first:
                raise Wrong(f"{entry.key} was written over")
            name = entry.key.removeprefix(LINES)
            self.read, self.silences = (entry.revision, name), 0
            await self.hand_on(Answer(entry.revision, name, fault_of(entry.value), 0), entry.value)
            await self.tell()

    async def watch(self, connection, last):
        """A watch of what stands behind the last line that was read, which has to be there still."""
        if last[0] < self.read[0]:
            raise Wrong(f"the log ends with revision {last[0]}, and {self.read[0]} was read: it has lost lines that were answered")
        watch = Watch(connection, LINES, max(1, self.read[0]))
        if self.read[0]:
            entry = None
            while not entry or entry.key != LINES + self.read[1]:  # several lines can have one revision
                entry = await watch.next()
                if entry is None:
                    await self.look_after(connection)
                elif entry.revision != self.read[0]:
                    raise Wrong(f"{self.read[1]} is not at revision {self.read[0]} any more: the log has lost lines")
        return watch

    async def look_after(self, connection):
        """Where nothing has come for a while, looks whether there is something, so that another server is to be asked."""
        self.silences = self.silences + 1 if await connection.last() != self.read else 0
        if self.silences > 1:
            self.silences = 0
            raise Lost("it does not tell what there is")

    async def hand_on(self, line, data):
        if self.calls < self.kept:
            self.learn(line, line.reply or await self.twin.answer(data))
            if self.calls == self.kept:
                self.twin.end()
                self.twin = None
            return
        self.waiting.append(line)
        if line.reply is None:
            await self.session.write(data)
        self.learn_faults()

    async def collect(self):
        """Takes the replies of casa, until it ends."""
        while (reply := await self.session.reply()) is not None:
            if not self.waiting:
                raise Wrong(f"casa has replied without a line: {reply[:200]}")
            self.learn(self.waiting.popleft(), reply)
            self.learn_faults()
            await self.tell()

    def learn_faults(self):
        while self.waiting and self.waiting[0].reply is not None:
            self.learn(self.waiting[0], self.waiting.popleft().reply)

    def learn(self, line, reply):
        """Keeps the reply to a line, until it is in the log."""
        if number := NUMBER.search(reply):
            self.calls += 1
            if int(number[1]) != self.calls:
                raise Wrong(f"{line.name} is call {self.calls}, and casa says {reply[:200]}")
            if self.calls <= self.kept and not self.twin.agrees():
                raise Wrong(f"the journal's line {self.calls} is not of {line.name}")
        self.own.append(line._replace(reply=reply, calls=self.calls))
        self.size += len(reply)

    # Replies are put into the log, and compared.

    async def publish(self, connection):
        """Puts replies into the log in their order, or compares them with those that are there. Where another replica has put
        the last ones, they are left to it for a while; nothing hangs on who does it."""
        while True:
            await self.until(lambda: self.own)
            if not self.is_writer:
                await asyncio.sleep(PATIENCE)
            batch = self.batch()
            keys = [REPLIES + answer.name for answer in batch]
            found = None if self.is_writer else await connection.get(keys)
            if not found or not found[0]:
                _, found = await connection.put([(key, answer.reply) for key, answer in zip(keys, batch)])
            self.is_writer = found is None
            for answer, entry in zip(batch, found or itertools.repeat(None)):
                if found and not entry:
                    break
                self.see(answer, entry)
            await self.tell()

    def batch(self):
        """The first replies, as many as go in one request."""
        batch, size = [], 0
        for answer in itertools.islice(self.own, BATCH):
            size += len(answer.reply)
            if batch and size > LONGEST_BATCH:
                break
            batch.append(answer)
        return batch

    def see(self, answer, entry):
        """The first reply stands in the log: it was put there, or is what this entry has."""
        if entry and entry.value != answer.reply:
            raise Wrong(f"the reply to {answer.name} is here {answer.reply[:1000]}, and in the log {entry.value[:1000]}")
        self.own.popleft()
        self.size -= len(answer.reply)
        self.mark = answer

    # How far it has come.

    async def remember(self):
        written = None
        while True:
            if self.mark is not written:
                written = self.mark
                self.write_mark()
            await asyncio.sleep(1)

    def write_mark(self):
        """What stays true for good: the lines up to this one have their replies in the log, and so many of them are calls."""
        if self.mark:
            new = pathlib.Path(f"{self.journal}.mark.new")
            new.write_text(json.dumps({"cluster": self.cluster, "revision": self.mark.revision, "name": self.mark.name,
                                       "calls": self.mark.calls}) + "\n")
            os.replace(new, f"{self.journal}.mark")

    # The whole.

    async def run(self):
        """Goes on until it is told to end."""
        ending, loop = asyncio.Event(), asyncio.get_running_loop()
        for number in (signal.SIGTERM, signal.SIGINT):
            loop.add_signal_handler(number, ending.set)
        stop = asyncio.create_task(ending.wait())
        begin = asyncio.create_task(self.begin())
        await asyncio.wait([stop, begin], return_when=asyncio.FIRST_COMPLETED)
        if not begin.done():
            return
        begin.result()
        feed, collect = asyncio.create_task(self.link.keep(self.feed)), asyncio.create_task(self.collect())
        others = [asyncio.create_task(self.link.keep(self.publish)), asyncio.create_task(self.remember())]
        done, _ = await asyncio.wait([stop, feed, collect, *others], return_when=asyncio.FIRST_COMPLETED)
        if stop not in done:
            for task in done:
                task.result()
            await self.session.process.wait()
            raise Ended(f"casa has ended, with status {self.session.process.returncode}. {self.session.told()}")
        await self.end(feed, collect, others)

    async def end(self, feed, collect, others):
        """Reads no more, and waits until what casa has is answered, and a while until that is in the log."""
        feed.cancel()
        self.session.process.stdin.close()
        await collect
        wait = asyncio.create_task(self.until(lambda: not self.own))
        done, _ = await asyncio.wait([wait, *others], timeout=5, return_when=asyncio.FIRST_COMPLETED)
        for task in done:
            task.result()
        self.write_mark()
        left = f"; {len(self.own)} replies are not in the log yet" if self.own else ""
        self.say(f"ends behind {self.read[1] or 'nothing'}{left}")

    def leave(self):
        if self.session:
            self.session.kill()
        if self.twin:
            self.twin.end()


async def main():
    words = argparse.ArgumentParser(description=__doc__, formatter_class=argparse.RawDescriptionHelpFormatter)
    words.add_argument("--name", required=True, help="its name, for what it says")
    words.add_argument("--servers", required=True, help="HOST:PORT of each server, the nearest first, with commas between")
    words.add_argument("--program", required=True, help="the program casa")
    words.add_argument("--journal", required=True, help="the file that keeps the day")
    replica = Replica(words.parse_args())
    status = 1
    try:
        await replica.run()
        status = 0
    except (Wrong, Gone) as fault:
        replica.say(str(fault))
        status = 3
    except Refused as fault:
        replica.say(f"the log refuses a request: {fault}")
    except (Ended, OSError) as fault:
        replica.say(str(fault))
    finally:
        replica.leave()
    os._exit(status)


if __name__ == "__main__":
    asyncio.run(main())
