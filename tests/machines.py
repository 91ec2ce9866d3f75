"""Three servers of etcd, three replicas and some desks on one machine, for tests/cluster: each can be killed, stopped for a while
and cut off from the others, since all connections go through proxies.
"""

import asyncio
import contextlib
import os
import pathlib
import re
import shutil
import signal
import subprocess
import sys
import threading
import time

import checking
from checking import QUIET, TOP, until

CLUSTER = TOP / "cluster"
sys.path.insert(0, str(CLUSTER))

import etcd
import sessions

PROCESSES, JOURNALS = [], set()


def kill_all():
    """Kills what was started here and still runs."""
    for process in PROCESSES:
        with contextlib.suppress(ProcessLookupError):
            process.kill()
            process.wait(QUIET)
    for journal in JOURNALS:
        shutil.rmtree(sessions.folder_of_twin(journal), ignore_errors=True)


def begin(words, log, **pipes):
    """A process of its own, whose standard error goes to a file."""
    with open(log, "ab") as said:
        process = subprocess.Popen([str(word) for word in words], stderr=said, start_new_session=True, **pipes)
    PROCESSES.append(process)
    return process


# What connections go through.

class Proxy:
    """Leads what connects to one port to another one. It can be cut, so that connections end and none is made, and stalled, so
    that they stay and nothing comes through: for all, or for those of one server, which says in its requests who it is. It counts
    what met that: connections that were ended or not made, and what was held back."""

    def __init__(self, target):
        self.port, self.target, self.cut, self.stalled, self.ends = checking.free_port(), target, set(), set(), {}
        self.met = {"cut": 0, "stall": 0}

    async def listen(self):
        self.server = await asyncio.start_server(self.meet, "127.0.0.1", self.port)

    async def meet(self, reader, writer):
        ends = [writer.transport]
        with contextlib.suppress(OSError, asyncio.IncompleteReadError, asyncio.LimitOverrunError):
            head = await reader.readuntil(b"\r\n\r\n")
            found = re.search(rb"X-Server-From: (\w+)", head)
            source = int(found[1], 16) if found else None
            if self.cut & {source, "all"}:
                self.met["cut"] += 1
            else:
                other_reader, other_writer = await asyncio.open_connection("127.0.0.1", self.target)
                ends.append(other_writer.transport)
                self.ends[writer] = source, ends
                other_writer.write(head)
                await asyncio.gather(self.pump(reader, other_writer, source), self.pump(other_reader, writer, source))
        self.ends.pop(writer, None)
        for end in ends:
            end.abort()

    async def pump(self, reader, writer, source):
        while data := await reader.read(1 << 16):
            self.met["stall"] += bool(self.stalled & {source, "all"})
            while self.stalled & {source, "all"}:
                await asyncio.sleep(0.02)
            writer.write(data)
            await writer.drain()
        raise ConnectionResetError

    def let(self, deed, whom="all"):
        """Cuts, stalls or heals it."""
        if deed == "heal":
            self.cut, self.stalled = set(), set()
        elif deed == "stall":
            self.stalled.add(whom)
        else:
            self.cut.add(whom)
            for source, ends in list(self.ends.values()):
                if whom in ("all", source):
                    self.met["cut"] += 1
                    for end in ends:
                        end.abort()


class Proxies:
    """All proxies, in a thread of their own."""

    def __init__(self):
        self.loop = asyncio.new_event_loop()
        threading.Thread(target=self.loop.run_forever, daemon=True).start()

    def between(self, target):
        """One more."""
        proxy = Proxy(target)
        asyncio.run_coroutine_threadsafe(proxy.listen(), self.loop).result(QUIET)
        return proxy

    def let(self, proxies, *deed):
        """Cuts, stalls or heals them."""
        def act():
            for proxy in proxies:
                proxy.let(*deed)
        self.loop.call_soon_threadsafe(act)


# Servers.

class Server:
    """A server of etcd with its folder, and the proxy through which the others reach it."""

    def __init__(self, number, folder, proxies):
        self.number, self.folder, self.process, self.member = number, folder, None, None
        self.port, self.peer = checking.free_port(), checking.free_port()
        self.proxy = proxies.between(self.peer)
        folder.mkdir()

    def start(self, servers):
        members = ",".join(f"s{server.number}=http://127.0.0.1:{server.proxy.port}" for server in servers)
        self.process = begin(
            ["etcd", "--name", f"s{self.number}", "--data-dir", self.folder / "data", "--logger", "zap",
             "--listen-client-urls", f"http://127.0.0.1:{self.port}", "--advertise-client-urls", f"http://127.0.0.1:{self.port}",
             "--listen-peer-urls", f"http://127.0.0.1:{self.peer}",
             "--initial-advertise-peer-urls", f"http://127.0.0.1:{self.proxy.port}", "--initial-cluster", members,
             "--heartbeat-interval", "200", "--election-timeout", "2000", "--max-request-bytes", "8388608"],
            self.folder / "server.log", stdin=subprocess.DEVNULL, stdout=subprocess.DEVNULL)

    def kill(self):
        self.process.kill()
        self.process.wait(QUIET)


# Replicas.

class Replica:
    """A replica with its folder, which is begun again when it was killed."""

    def __init__(self, name, folder, program, proxies):
        self.name, self.folder, self.program, self.proxies = name, folder, program, proxies
        self.journal, self.log, self.process = folder / "day.journal", folder / "replica.log", None
        folder.mkdir(exist_ok=True)
        JOURNALS.add(self.journal)

    def start(self):
        servers = ",".join(f"127.0.0.1:{proxy.port}" for proxy in self.proxies)
        self.process = begin([CLUSTER / "replica.py", "--name", self.name, "--servers", servers, "--program", self.program,
                              "--journal", self.journal], self.log, stdin=subprocess.DEVNULL, stdout=subprocess.DEVNULL)

    def kill(self):
        """What it was working on is cut off anywhere; its casa ends a little later, by itself."""
        self.process.kill()
        return self.process.wait(QUIET)

    def end(self):
        self.process.send_signal(signal.SIGTERM)
        return self.process.wait(QUIET)

    def casa(self):
        """The number of the casa that has the journal, if there is one."""
        for child in checking.below(self.process.pid):
            with contextlib.suppress(OSError):
                if b"--journal" in pathlib.Path(f"/proc/{child}/cmdline").read_bytes():
                    return child
        return None

    def kill_casa(self):
        """Kills the casa that has the journal, if there is one: the replica ends."""
        if (child := self.casa()) is None:
            return None
        with contextlib.suppress(OSError):
            os.kill(child, signal.SIGKILL)
        return self.process.wait(QUIET)

    def said(self):
        return self.log.read_text() if self.log.exists() else ""


# Desks.

class Desk:
    """A desk that sends its lines as they are given, in one session, also where it is killed and begun again."""

    def __init__(self, name, number, folder, servers):
        self.name, self.folder, self.servers = name, folder, servers
        self.given, self.outputs, self.log, self.lock = [], [], folder / f"{name}.{number}.log", threading.RLock()
        self.number, self.is_closed = number, False
        self.start()

    def start(self):
        with self.lock:
            output = self.folder / f"{self.name}.{self.number}.{len(self.outputs)}"
            self.outputs.append(output)
            with open(output, "wb") as replies:
                self.process = begin([CLUSTER / "desk.py", "--name", self.name, "--session", "s", "--servers", self.servers],
                                     self.log, stdin=subprocess.PIPE, stdout=replies)
            self.writer = threading.Thread(target=self.write, args=(self.process,), daemon=True)
            self.writer.start()

    def write(self, process):
        """Writes the lines that are there, and those that come, until the desk is closed or gone."""
        sent = 0
        with contextlib.suppress(OSError):
            while True:
                with self.lock:
                    lines, is_closed = self.given[sent:], self.is_closed
                sent += len(lines)
                process.stdin.write(b"".join(lines))
                process.stdin.flush()
                if is_closed and not lines:
                    return process.stdin.close()
                time.sleep(0.02)

    def give(self, lines):
        with self.lock:
            self.given += lines

    def close(self):
        with self.lock:
            self.is_closed = True

    def kill(self):
        """Kills it, and begins it again from its first line on. Gives whether it was there to be killed."""
        if self.process.poll() is not None:
            return False
        self.process.kill()
        self.process.wait(QUIET)
        self.start()
        return True


# The whole.

def asked(link, work):
    """What a work gives over a link, which is then closed."""
    async def run():
        try:
            return await link.keep(work)
        finally:
            link.close()
    return asyncio.run(run())


class Cluster:
    def __init__(self, folder, program):
        self.folder, self.program, self.proxies = folder, program, Proxies()
        self.servers = [Server(number, folder / f"server{number}", self.proxies) for number in range(3)]
        for server in self.servers:
            server.start(self.servers)
        for server, stand in zip(self.servers, self.stands()):
            server.member = stand
        self.replicas = [self.replica(f"r{number}", folder / f"replica{number}", program, number) for number in range(3)]
        self.desk_proxies = [self.proxies.between(server.port) for server in self.servers]
        self.addresses = ",".join(f"127.0.0.1:{proxy.port}" for proxy in self.desk_proxies)

    def replica(self, name, folder, program, nearest=0):
        proxies = [self.proxies.between(self.servers[(nearest + number) % 3].port) for number in range(3)]
        return Replica(name, folder, program, proxies)

    def part(self, server, deed):
        """Parts a server from the two others, in both directions, or heals that."""
        self.proxies.let([server.proxy], deed)
        self.proxies.let([other.proxy for other in self.servers if other is not server], deed, server.member)

    def link(self):
        return etcd.Link([f"127.0.0.1:{server.port}" for server in self.servers])

    def stands(self):
        """The member number of each server, when all three know what all know, and who leads; none if they do not for long."""
        async def stand_of(server):
            connection = etcd.Connection(f"127.0.0.1:{server.port}")
            try:
                await connection.last()
                return int((await connection.status())["header"]["member_id"])
            except etcd.Lost:
                return None
            finally:
                connection.close()

        async def run():
            return await asyncio.gather(*map(stand_of, self.servers))
        stands = []

        def are_known():
            stands[:] = asyncio.run(run())
            return None not in stands

        until(are_known, pause=0.2)
        return stands

    def entries(self, prefix, server=None):
        """All that ever came to stand below a name, in its order: of each the rest of its key, and its value. By one server, if it
        is named, as that one has it."""
        async def read(connection):
            told = await connection.post("/v3/kv/range", key=etcd.coded(prefix), range_end=etcd.coded(prefix[:-1] + "0"), limit="1",
                                         sort_target="MOD", sort_order="DESCEND", keys_only=True)
            last = int(told["kvs"][0]["mod_revision"]) if "kvs" in told else 0
            watch, found, entry = etcd.Watch(connection, prefix, 1), [], None
            while last and (not entry or entry.revision < last or watch.entries):
                if entry := await watch.next():
                    found.append((entry.key.removeprefix(prefix), entry.value))
            return found
        return asked(etcd.Link([f"127.0.0.1:{server.port}"]) if server else self.link(), read)
