"""Servers on a journal, the desks that ask them, and what these were told, for tests/crash, tests/journals.py and tests/standby.

A journal is a file of lines, one for each committed call, in their order, with its position `n` from 1. What counts are its
whole lines: those that are ended by a line feed and stand before its first NUL.
"""

import contextlib
import json
import os
import pathlib
import random
import re
import resource
import signal
import socket
import struct
import subprocess
import threading
import time

import checking
from checking import MUCH, QUIET, check, free_port, until

MOST_TORN = 1 << 20  # bytes, of one batch
NUMBER = re.compile(rb'"n":(\d+)')


# The file, as this test reads it.

def whole_end(text):
    """How many bytes the whole lines take."""
    hole = text.find(b"\0")
    return text.rfind(b"\n", 0, len(text) if hole < 0 else hole) + 1


def is_refused(torn):
    """Whether this is more than a torn line, so that it is refused without --force."""
    return len(torn) > MOST_TORN or b"\n" in torn


def sum_of(line):
    """The sum for which the line of a journal vouches: FNV-1a of the reply's line, with 32 bits."""
    value = 2_166_136_261
    for byte in line:
        value = (value ^ byte) * 16_777_619 & 0xFFFFFFFF
    return value


def kept_of(path):
    """What was kept beside a journal, in its order."""
    kept, number = [], 1
    while (file := pathlib.Path(f"{path}.torn" + (f".{number}" if number > 1 else ""))).exists():
        kept.append(file.read_bytes())
        number += 1
    return kept


def wrong_line(line, reply, number):
    """What is wrong with the line of a journal at a position, to whose call this is the reply."""
    call = json.loads(line)
    if line != json.dumps(call, sort_keys=True, separators=(",", ":")).encode():
        return "its members are not in order"
    label = [call.pop(name, None) for name in ("n", "rules", "sum", "desk")]
    if label[:3] != [number, 1, sum_of(reply)] or not isinstance(label[3], int):
        return f"its label is {label}, and the sum of the reply {sum_of(reply)}"
    return None


def call_of(line):
    """The call of a line that a desk sent or a journal has, as one text."""
    call = json.loads(line)
    if call.get("cmd") in ("file", "amend"):
        call.setdefault("sts")
    return json.dumps({name: call[name] for name in call if name not in ("n", "rules", "sum", "desk")}, sort_keys=True)


def replies_to(program, text):
    """The lines with which `casa run` answers these lines, alone and with no journal."""
    session = checking.run([program, "run"], input=text, stdout=subprocess.PIPE)
    return session.stdout.splitlines(keepends=True)


class Issued:
    """The take-off times that stand, by what calls and their replies say of them."""

    def __init__(self):
        self.times = {}

    def see(self, line, reply):
        if b'"cmd":"cancel"' in line and b'"done"' in reply:
            self.times.pop(json.loads(line)["key"], None)
        if b'"kind":"S' in reply:
            for message in json.loads(reply)["msgs"]:
                self.times[message["key"]] = message.get("ctot")
                if message["kind"] == "SLC":
                    del self.times[message["key"]]


# What desks ask.

KEYS = [b"F%d" % number for number in range(30)]
WEIGHTS = {"file": 16, "amend": 10, "cancel": 12, "revise": 8, "exempt": 1, "open": 5, "rates": 5, "close": 1, "tick": 6,
           "swap": 14, "show": 12, "list": 4, "fault": 1}


class Day:
    """Draws calls over few flights and regulations, as the clock goes on: so many slots are issued, revised and exchanged."""

    def __init__(self):
        self.clock = 18_000
        self.begins = {}

    def plan(self, command, dice):
        eobt = self.clock + dice.randrange(9000)
        over = (eobt + 600) // 3600 * 3600 + 3600
        via = b",".join(b'{"loc":"L%d","eto":%d}' % (loc, over + dice.randrange(90))
                        for loc in dice.sample(range(3), dice.choice([1, 1, 1, 2])))
        return b'{"cmd":"%s","key":"%s","eobt":%d,"taxi":600,"via":[%s]}\n' % (command, dice.choice(KEYS), eobt, via)

    def periods(self, reg, dice):
        begin = self.begins.setdefault(reg, self.clock // 3600 * 3600)
        middle, end = begin + 7200, begin + 14_400 + dice.choice([0, 0, 0, 1800, 3600])
        rates = dice.choices([0, 6, 12, 20, 40], k=2)
        return b'[{"from":%d,"to":%d,"rate":%d},{"from":%d,"to":%d,"rate":%d}]' % (
            begin, middle, rates[0], middle, end, rates[1])

    def line(self, dice):
        """A line; its call may be refused."""
        command = dice.choices(list(WEIGHTS), WEIGHTS.values())[0]
        name, reg = command.encode(), dice.randrange(4)
        if command in ("file", "amend"):
            return self.plan(name, dice)
        if command == "tick":
            self.clock = min(172_000, self.clock + dice.randrange(60))
            return b'{"cmd":"tick","at":%d}\n' % self.clock
        if command == "open":
            self.begins.pop(reg, None)
            return b'{"cmd":"open","reg":"R%d","loc":"L%d","periods":%s}\n' % (reg, reg % 3, self.periods(reg, dice))
        if command == "rates":
            return b'{"cmd":"rates","reg":"R%d","periods":%s}\n' % (reg, self.periods(reg, dice))
        if command in ("close", "list"):
            return b'{"cmd":"%s","reg":"R%d"}\n' % (name, reg)
        if command == "swap":
            return b'{"cmd":"swap","key":"%s","other":"%s"}\n' % (dice.choice(KEYS), dice.choice(KEYS))
        return b"{}\n" if command == "fault" else b'{"cmd":"%s","key":"%s"}\n' % (name, dice.choice(KEYS))

    def lines(self, count, seed):
        dice = random.Random(seed)
        return [self.line(dice) for _ in range(count)]


class Desk(threading.Thread):
    """Asks a server until that is gone or the desk is told to stop: so many lines ahead at most, over one connection after
    the other. Each line that may have been sent is in `sent`, and with the reply that came whole in `exchanges`."""

    def __init__(self, server, day, seed, ahead):
        super().__init__(daemon=True)
        self.server, self.day, self.dice, self.ahead = server, day, random.Random(seed), ahead
        self.sent, self.exchanges, self.is_to_stop = [], [], False

    def run(self):
        try:
            while not self.is_to_stop:
                with self.server.connect(self.dice.choice([True, False])) as connection, connection.makefile("rb") as replies:
                    for _ in range(self.dice.randrange(1, 60)):
                        self.ask(connection, replies)
                        if self.is_to_stop:
                            break
        except OSError:
            pass  # the server is gone

    def ask(self, connection, replies):
        lines = [self.day.line(self.dice) for _ in range(self.dice.randrange(1, self.ahead + 1))]
        self.sent += lines
        connection.sendall(b"".join(lines))
        for line in lines:
            reply = replies.readline()
            if not reply.endswith(b"\n"):
                raise ConnectionResetError
            self.exchanges.append((line, reply))
        time.sleep(self.dice.random() * self.ahead / 4000)


class Desks:
    """Eight desks: of these, five that wait for each reply, and three with up to 64 lines ahead."""

    def __init__(self, server, day, seed):
        self.desks = [Desk(server, day, f"{seed} {number}", ahead) for number, ahead in enumerate([1, 64, 1, 64, 1, 64, 1, 1])]
        for desk in self.desks:
            desk.start()

    def count(self):
        return sum(len(desk.exchanges) for desk in self.desks)

    def sent(self):
        return [line for desk in self.desks for line in desk.sent]

    def stop(self):
        for desk in self.desks:
            desk.is_to_stop = True
        return self.told()

    def told(self):
        """What they were told, when they have ended: by its number, each line with its reply."""
        told, twice = {}, []
        for desk in self.desks:
            check("a desk ends", checking.joined([desk], self.count))
            for line, reply in desk.exchanges:
                number = NUMBER.search(reply)
                if number is None:
                    check("a fault", (line, reply) == (b"{}\n", b'{"fault":"NoCommand"}\n'), (line, reply))
                elif told.setdefault(int(number[1]), (line, reply)) != (line, reply):
                    twice.append(number[1])
        check("no number is told twice", not twice, twice)
        return told


# The program.

RUNNING = set()


def kill_all():
    """Kills the servers that still run, where a scene could not go on."""
    for server in list(RUNNING):
        server.kill()


class Disk:
    """Watches what a server writes to its journal, and lets its disk fail: disk.c."""

    def __init__(self, library, folder):
        self.library, self.state = library, pathlib.Path(folder) / "disk"

    def environment(self, journal, **failures):
        """What a program is to be started with; the bytes of the journal are on the disk."""
        length = journal.stat().st_size if journal.exists() else 0
        self.state.write_bytes(struct.pack("5l", length, 0, 0, 0, 0))
        names = {f"DISK_{name.upper()}": str(number) for name, number in failures.items()}
        return {**os.environ, "LD_PRELOAD": str(self.library), "DISK_FILE": str(journal), "DISK_STATE": str(self.state), **names}

    def read(self):
        """How many bytes are on the disk, how many writes there were, how many syncs, how many cuts that came too early, and how
        many requests for memory."""
        return struct.unpack("5l", self.state.read_bytes())


class Server:
    """A server on a journal, at a port and, where it stays, at a socket, and what it says on standard error."""

    def __init__(self, program, journal, *words, environment=None, limit=None, folder=None):
        self.port, self.said = free_port(), []
        self.path = None if "--connections" in words else f"{folder or journal.parent}/desk"
        kind = ("--stay", "--socket", self.path, "--seats", "8", *words) if self.path else words
        self.process = subprocess.Popen(
            [program, "serve", "--port", str(self.port), "--journal", str(journal), *kind], stdin=subprocess.DEVNULL,
            stdout=subprocess.DEVNULL, stderr=subprocess.PIPE, env=environment, preexec_fn=limit)
        RUNNING.add(self)
        self.reader = threading.Thread(target=self.read, daemon=True)
        self.reader.start()

    def read(self):
        for line in self.process.stderr:
            self.said.append(line.decode(errors="replace"))

    def connect(self, at_socket=False):
        at_socket = at_socket and self.path is not None
        connection = socket.socket(socket.AF_UNIX if at_socket else socket.AF_INET)
        connection.settimeout(QUIET)
        try:
            connection.connect(self.path if at_socket else ("127.0.0.1", self.port))
            if not at_socket:
                connection.setsockopt(socket.IPPROTO_TCP, socket.TCP_NODELAY, 1)
        except OSError:
            connection.close()
            raise
        return connection

    def first(self):
        """A connection over which a line was answered that is no call, as soon as there is one; none if the server ends before
        that. Then it has opened its journal."""
        found = []

        def is_over():
            with contextlib.suppress(OSError):
                connection = self.connect()
                if asked_of(connection, [b"{}\n"]) == [b'{"fault":"NoCommand"}\n']:
                    found.append(connection)
                else:
                    connection.close()
            return found or self.process.poll() is not None

        until(is_over, pause=0.002)
        return found[0] if found else None

    def has_said(self, part):
        """Whether it says this before it says nothing more for long."""
        return until(lambda: any(part in line for line in self.said), lambda: min(len(self.said), MUCH), pause=0.002)

    def kill(self):
        """Kills it in the middle of what it does."""
        self.process.kill()
        self.process.wait(QUIET)
        self.reader.join(QUIET)
        RUNNING.discard(self)

    def ended(self, count=lambda: 0):
        """How it ends by itself: its status, and what it says; none where it does not, though nothing goes on any more, of which
        this is the count, or very much has."""
        if not until(lambda: self.process.poll() is not None, lambda: min(count() + len(self.said), MUCH), pause=0.002):
            self.kill()
            return None, "".join(self.said)
        self.reader.join(QUIET)
        RUNNING.discard(self)
        return self.process.returncode, "".join(self.said)


def limited(size):
    """Lets no file of a program be longer, and no signal say so."""
    def limit():
        signal.signal(signal.SIGXFSZ, signal.SIG_IGN)
        resource.setrlimit(resource.RLIMIT_FSIZE, (size, size))
    return limit


def stuff(connection):
    """Sends lines that are no calls, and reads none of the replies, until no more are taken."""
    connection.settimeout(0.3)
    with contextlib.suppress(TimeoutError):
        while True:
            connection.send(b"x\n" * 4096)
    connection.settimeout(QUIET)
    return connection


def asked_of(connection, lines):
    """The replies to these lines, or those that came."""
    with connection.makefile("rb") as replies:
        connection.sendall(b"".join(lines))
        return [replies.readline() for _ in lines]
