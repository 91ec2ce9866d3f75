"""A client of etcd, as much of it as a replicated log takes, with the standard library alone.

Etcd keeps keys with values on several servers, which agree on each change before it counts, and sync it. Each change has a
number, its revision: they are in one order. Its JSON gateway is asked by HTTP, with keys and values in base64.
"""

import asyncio
import base64
import collections
import contextlib
import itertools
import json

WAIT = 3.0  # seconds without an answer, after which another server is tried; more where none of them answers
LONGEST_WAIT = 20.0
SILENCE = 2.0  # seconds without an event, after which a watch is looked after
LONGEST = 64 << 20  # bytes of an answer

LINES, REPLIES, LAST = "casa/lines/", "casa/replies/", "casa/last"

Entry = collections.namedtuple("Entry", "revision key value is_first")
Entry.__doc__ = "A change: what has stood under a key since then, and whether nothing did before."


class Lost(Exception):
    """The server is gone, does not answer, or knows nobody who leads: another one is to be tried."""


class Refused(Exception):
    """The servers will never do this."""


class Gone(Exception):
    """The log lacks what it had."""


def coded(text):
    return base64.b64encode(text.encode() if isinstance(text, str) else text).decode()


def entry_of(kv):
    return Entry(int(kv["mod_revision"]), base64.b64decode(kv["key"]).decode(errors="replace"),
                 base64.b64decode(kv.get("value", "")), kv.get("version") == "1")


class Stream:
    """One connection of HTTP, over which one request after the other is made."""

    def __init__(self, reader, writer, host):
        self.reader, self.writer, self.host, self.length = reader, writer, host, None

    async def ask(self, path, words):
        """Sends a request, and reads the head of the answer: its status, and how many bytes follow, or none if they come in
        chunks."""
        body = json.dumps(words).encode()
        self.writer.write(b"POST %s HTTP/1.1\r\nHost: %s\r\nContent-Type: application/json\r\nContent-Length: %d\r\n\r\n%s" % (
            path.encode(), self.host.encode(), len(body), body))
        await self.writer.drain()
        first, length = await self.reader.readline(), None
        if not first:
            raise ConnectionResetError
        status = int(first.split()[1])
        while (line := await self.reader.readline()) != b"\r\n":
            if not line:
                raise ConnectionResetError
            if line.lower().startswith(b"content-length:"):
                length = int(line.split(b":")[1])
        return status, length

    async def chunk(self):
        """The next bytes of an answer in chunks, none at its end. Who gives up waiting can go on later."""
        if self.length is None:
            line = await self.reader.readline()
            if not line:
                raise ConnectionResetError
            self.length = int(line.split(b";")[0], 16)
        part = (await self.reader.readexactly(self.length + 2))[:self.length]
        self.length = None
        return part

    async def answer(self, path, words):
        status, length = await self.ask(path, words)
        if length is not None:
            return status, await self.reader.readexactly(length)
        parts = []
        while part := await self.chunk():
            parts.append(part)
        return status, b"".join(parts)

    def close(self):
        self.writer.transport.abort()


@contextlib.contextmanager
def faults():
    """What can be wrong with a connection, as `Lost`."""
    try:
        yield
    except asyncio.TimeoutError:
        raise Lost("it does not answer") from None
    except (ValueError, IndexError, KeyError, TypeError) as fault:
        raise Lost(f"it does not answer as etcd does: {fault!r}") from None
    except (OSError, asyncio.IncompleteReadError) as fault:
        raise Lost(getattr(fault, "strerror", None) or "the connection has ended") from None


class Connection:
    """What one server is asked over: streams that are used again."""

    def __init__(self, address, wait=WAIT):
        self.address, self.wait, self.idle, self.all, self.is_lost = address, wait, [], set(), False

    async def stream(self):
        if self.is_lost:
            raise Lost("it was given up")
        if self.idle:
            return self.idle.pop()
        host, _, port = self.address.rpartition(":")
        stream = Stream(*await asyncio.open_connection(host, int(port), limit=LONGEST), self.address)
        self.all.add(stream)
        return stream

    async def post(self, path, **words):
        """The answer of the server, which is one of all servers, or none."""
        stream = None
        with faults():
            try:
                async with asyncio.timeout(self.wait):
                    stream = await self.stream()
                    status, body = await stream.answer(path, words)
                self.idle.append(stream)
            except BaseException:
                if stream:
                    self.all.discard(stream)
                    stream.close()
                raise
            answer = json.loads(body)
        if status == 400:
            raise Refused(answer.get("error"))
        if status != 200:
            raise Lost(answer.get("error", f"it answers {status}"))
        return answer

    def close(self):
        self.is_lost = True
        for stream in self.all:
            stream.close()

    async def status(self):
        return await self.post("/v3/maintenance/status")

    async def get(self, keys):
        """What stands under keys, as all servers know it: an entry for each, or none."""
        told = await self.post("/v3/kv/txn", success=[{"request_range": {"key": coded(key)}} for key in keys])
        found = (answer["response_range"].get("kvs") for answer in told["responses"])
        return [entry_of(kvs[0]) if kvs else None for kvs in found]

    async def put(self, pairs, others=()):
        """Puts values under keys, if none of these keys was ever used, and then others, too. Gives the revision, or where one
        was, what stands under them."""
        keys = [coded(key) for key, _ in pairs]
        told = await self.post(
            "/v3/kv/txn", compare=[{"key": key, "target": "CREATE", "result": "EQUAL", "create_revision": "0"} for key in keys],
            success=[{"request_put": {"key": coded(key), "value": coded(value)}} for key, value in (*pairs, *others)],
            failure=[{"request_range": {"key": key}} for key in keys])
        if told.get("succeeded"):
            return int(told["header"]["revision"]), None
        found = (answer["response_range"].get("kvs") for answer in told["responses"])
        return None, [entry_of(kvs[0]) if kvs else None for kvs in found]

    async def last(self):
        """Revision and name of the last line. Before the first one these are 0 and nothing."""
        entry, = await self.get([LAST])
        return (entry.revision, entry.value.decode(errors="replace")) if entry else (0, "")


class Watch:
    """Tells the changes of all keys that begin alike, from a revision on, in their order."""

    def __init__(self, connection, prefix, first):
        self.connection, self.prefix, self.first = connection, prefix, first
        self.stream, self.entries, self.rest = None, collections.deque(), b""

    async def next(self):
        """The next change; none where there is none for a while."""
        with faults():
            if self.stream is None:
                async with asyncio.timeout(self.connection.wait):
                    await self.begin()
            try:
                async with asyncio.timeout(None if self.entries else SILENCE):
                    while not self.entries:
                        await self.read()
            except asyncio.TimeoutError:
                return None
        return self.entries.popleft()

    async def begin(self):
        end = self.prefix[:-1] + chr(ord(self.prefix[-1]) + 1)
        stream = self.stream = await self.connection.stream()
        status, _ = await stream.ask("/v3/watch", {"create_request": {
            "key": coded(self.prefix), "range_end": coded(end), "start_revision": str(self.first), "fragment": True}})
        if status != 200:
            raise Lost(f"it answers {status}")

    async def read(self):
        part = await self.stream.chunk()
        if not part:
            raise Lost("the watch has ended")
        *lines, self.rest = (self.rest + part).split(b"\n")
        for line in lines:
            told = json.loads(line).get("result", {})
            if told.get("compact_revision"):
                raise Gone(f"the log was compacted: what was before revision {told['compact_revision']} is gone")
            if told.get("canceled"):
                raise Lost(told.get("cancel_reason") or "the watch was ended")
            for event in told.get("events", ()):
                if event.get("type") == "DELETE":
                    raise Gone(f"{base64.b64decode(event['kv']['key']).decode()} was deleted")
                self.entries.append(entry_of(event["kv"]))


class Link:
    """A connection to one of several servers, and to the next one where that is lost."""

    def __init__(self, addresses, say=lambda text: None):
        self.turn, self.count, self.say = itertools.cycle(addresses), len(addresses), say
        self.connection, self.lock, self.said, self.wait = None, asyncio.Lock(), None, WAIT

    async def get(self):
        """The connection, as soon as there is one."""
        async with self.lock:
            for tries in itertools.count(1):
                if self.connection and not self.connection.is_lost:
                    return self.connection
                self.connection = Connection(next(self.turn), self.wait)
                try:
                    await self.connection.last()
                    self.wait = max(WAIT, self.wait * 0.8)
                    self.tell(f"connected to {self.connection.address}")
                except Lost as lost:
                    self.connection.close()
                    self.tell(f"{self.connection.address} can't be used: {lost}")
                    self.wait = min(LONGEST_WAIT, self.wait * 1.2)
                    await asyncio.sleep(0.05 if tries % self.count else 0.5)

    def tell(self, text):
        if text != self.said:
            self.say(text)
        self.said = text

    def drop(self, connection, why=""):
        """Gives a connection up, if nobody else has."""
        if not connection.is_lost:
            self.tell(f"{connection.address} is lost: {why}")
            connection.close()

    def close(self):
        if self.connection:
            self.connection.close()

    async def keep(self, work):
        """Does a work over the connection, and again over the next one where that is lost; gives what it gives at its end."""
        while True:
            connection = await self.get()
            try:
                return await work(connection)
            except Lost as fault:
                self.drop(connection, fault)
                await asyncio.sleep(0.1)


async def enter(link, pairs):
    """Puts lines into the log under their names, in this order, however often that takes. Gives of each its revision, and the line
    that stood there before, if one did: that may be so of the first ones alone."""
    entered = []

    async def attempt(connection):
        while rest := [(LINES + name, line) for name, line in pairs[len(entered):]]:
            revision, found = await connection.put(rest, [(LAST, pairs[-1][0])])
            entered.extend([(revision, None)] * len(rest) if revision else [
                (entry.revision, entry.value) for entry in itertools.takewhile(bool, found)])
            if not revision and not found[0]:
                raise Gone(f"lines behind {rest[0][0]} stand in the log, and that one does not")
    await link.keep(attempt)
    return entered
