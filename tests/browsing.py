"""Browsers as bytes, servers with a page, what there is to look at, and those who look and send lines at once: for
tests/browsers and bench/page."""

import collections
import importlib.machinery
import importlib.util
import json
import random
import socket
import struct
import sys
import threading
import time
import traceback

import checking
import lives
from checking import HERE, QUIET, TOP, check
from lives import NUMBER


def loaded(name, path):
    """A script as a module."""
    loader = importlib.machinery.SourceFileLoader(name, str(path))
    module = importlib.util.module_from_spec(importlib.util.spec_from_loader(name, loader))
    sys.modules[name] = module
    loader.exec_module(module)
    return module


stay, days, mock = loaded("stay", HERE / "stay"), loaded("page", HERE / "page"), loaded("mock", TOP / "page" / "mock")
compact = mock.compact
MOST = 1000  # entries that are told at once of what came of calls
COMPARED = 4  # of what one who looks was told is compared, each with what a session of its own tells
FEW = 300  # lines after which tests/opinion, which is slow, is asked in the midst of many
COMMON = [("cache-control", "no-store"), ("content-security-policy", mock.POLICY),
          ("cross-origin-resource-policy", "same-origin"), ("x-content-type-options", "nosniff")]
HTML, JSON, LINES = "text/html; charset=utf-8", "application/json", "application/x-ndjson"
METRICS = "text/plain; version=0.0.4; charset=utf-8"


# A browser, as bytes.

class Answer:
    """What a request is answered with; its fields are in the order in which they came."""

    def __init__(self, version, status, fields, body):
        self.version, self.status, self.fields, self.body = version, status, fields, body

    def field(self, wanted):
        return next((value for name, value in self.fields if name == wanted), None)

    def value(self):
        return json.loads(self.body)

    def __repr__(self):
        return f"{self.version} {self.status} {self.fields} {self.body[:300]!r}"


def request(host, method, target, body=b"", *fields):
    """The bytes of a request."""
    length = [f"Content-Length: {len(body)}"] if body or method == "POST" else []
    return "\r\n".join([f"{method} {target} HTTP/1.1", f"Host: {host}", *fields, *length, "", ""]).encode() + body


class Browser:
    """A connection to a page's port."""

    def __init__(self, port, receive_buffer=None):
        self.host, self.socket = f"127.0.0.1:{port}", socket.socket()
        self.socket.settimeout(QUIET)
        if receive_buffer:
            self.socket.setsockopt(socket.SOL_SOCKET, socket.SO_RCVBUF, receive_buffer)
        self.socket.connect(("127.0.0.1", port))
        self.socket.setsockopt(socket.IPPROTO_TCP, socket.TCP_NODELAY, 1)
        self.input = self.socket.makefile("rb")

    def __enter__(self):
        return self

    def __exit__(self, *_):
        self.close()

    def close(self):
        self.input.close()
        self.socket.close()

    def reset(self):
        self.socket.setsockopt(socket.SOL_SOCKET, socket.SO_LINGER, struct.pack("ii", 1, 0))
        self.close()

    def send(self, text):
        self.socket.sendall(text)

    def end(self):
        """Sends nothing more."""
        self.socket.shutdown(socket.SHUT_WR)

    def read(self):
        """The next answer; none where the connection ends before it."""
        try:
            version, status = self.input.readline().split(b" ", 2)[:2]
            fields = []
            while (line := self.input.readline()) != b"\r\n":
                name, value = line.decode().rstrip("\r\n").split(": ", 1)
                fields.append((name, value))
            length = int(dict(fields).get("content-length", 0))
            body = self.input.read(length)
        except (ValueError, ConnectionError):
            return None
        if len(body) < length:
            return None
        if any(name.startswith("access-control") for name, _ in fields):
            check("no other origin may read", False, fields)
        return Answer(version.decode(), int(status), fields, body)

    def is_ended(self):
        """Whether nothing more comes, and the connection ends."""
        try:
            return self.input.read(1) == b""
        except ConnectionError:
            return True

    def ask(self, method, target, body=b"", *fields):
        self.send(request(self.host, method, target, body, *fields))
        answer = self.read()
        if answer is None:
            raise ConnectionResetError(target)
        return answer

    def get(self, target):
        return self.ask("GET", target)

    def post(self, lines, origin=None):
        return self.ask("POST", "/lines", lines, f"Origin: {origin or 'http://' + self.host}")

    def try_lines(self, lines):
        return self.ask("POST", "/try", lines, f"Origin: http://{self.host}")


class Server(stay.Server):
    """A server that stays, with a page."""

    def __init__(self, program, *words, **more):
        self.page = None
        super().__init__(program, "--stay", *words, **more)

    def ports(self):
        self.page = checking.free_port()
        return [*super().ports(), "--page", str(self.page)]

    def is_begun(self):
        return super().is_begun() and checking.is_listening(self.page)

    def __enter__(self):
        return self

    def __exit__(self, *_):
        self.end()

    def connect(self, _at_socket=False):
        return super().connect()

    def browser(self, receive_buffer=None):
        return Browser(self.page, receive_buffer)

    def get(self, target):
        with self.browser() as browser:
            return browser.get(target)

    def calls(self):
        """How many calls there were."""
        return self.get("/state").value()["n"]


def dressed(kind, body, *more):
    """The fields of an answer with this body, of this kind."""
    return COMMON + [("content-type", kind)] * bool(kind) + list(more) + [("content-length", str(len(body)))]


def same(name, answer, kind, body):
    """The answer is 200, of this kind, and has this body and no field but those of all answers."""
    is_it = answer is not None and (answer.status, answer.fields, answer.body) == (200, dressed(kind, body), body)
    return check(name, is_it, answer and (answer.status, answer.fields, *difference(answer.body, body)))


def difference(body, wanted):
    """From where a body is another than it must be, and how both go on from there."""
    shorter = min(len(body), len(wanted))
    at = next((at for at in range(shorter) if body[at] != wanted[at]), shorter)
    return at, body[max(0, at - 40):at + 200], wanted[max(0, at - 40):at + 200]


def is_refused(name, answer, status, *more):
    """The answer has this status, no body, and no field but those of all answers and these. (To HEAD it tells no length.)"""
    fields = [field for field in answer.fields if field != ("content-length", "0")] if answer else None
    check(name, answer is not None and (answer.status, fields, answer.body) == (status, COMMON + list(more), b""), answer)


# What is to be looked at.

class Told:
    """What there is to look at after some lines: by the replies of `casa run`, and of why flights wait by tests/opinion."""

    def __init__(self, program, lines):
        self.lines, self.session, self.day = lines, days.Session(program, b"".join(lines)), None

    @property
    def calls(self):
        return self.session.calls

    def state(self):
        return compact(self.session.record("")["state"]).encode()

    def list(self, reg):
        lists = self.session.lists
        return compact({"list": lists[reg], "n": self.calls}).encode() if reg in lists else None

    def flight(self, key):
        if self.day is None:
            self.day = mock.Day()
            for line in self.lines:
                self.day.answer(line.rstrip(b"\n"), 0)
        flight = self.day.flight_text(key)
        return None if flight is None else compact(flight).encode()

    def since(self, position, desks):
        """What came of the calls behind a position, each of the desk with this number."""
        last = min(self.calls, position + MOST)
        news = [{**news, "desk": desks[news["n"]]} for news in self.session.news if position < news["n"] <= last]
        return compact({"n": last, "news": news}).encode()

    def is_at(self, target, body):
        """Whether this is shown at the target, which is of a state, a list or a flight. Of a flight behind many lines, by the
        replies alone."""
        path, _, name = target.partition("?")
        if path == "/flight" and len(self.lines) > FEW:
            shown, session = json.loads(body), self.session
            told = {"flight": session.flights.get(name), "n": self.calls, "plan": session.plans.get(name)}
            return {part: shown[part] for part in told} == told
        return body == {"/state": lambda _: self.state(), "/list": self.list, "/flight": self.flight}[path](name)


def would_be(program, before, body):
    """What is told where lines are tried behind these: the replies of `casa run` behind them, and a line with the states."""
    tried = [line + b"\n" for line in body.removesuffix(b"\n").split(b"\n")] if body else []
    replies = lives.replies_to(program, b"".join(before + tried))[len(before):]
    states = [Told(program, lines).state() for lines in (before + tried, before)]
    return b"".join(replies) + b'{"after":%s,"before":%s}\n' % tuple(states)


def desks_of(name, news, owners):
    """The number of the desk of each call, where its owner is known by the call's number: as the news tell it, one number for
    each owner, and no two the same."""
    numbers = {}
    for one in news:
        if one["n"] in owners:
            numbers.setdefault(owners[one["n"]], set()).add(one["desk"])
    desks = [desk for told in numbers.values() for desk in told]
    check(f"{name}: a desk for each", len(set(desks)) == len(desks) == len(numbers), numbers)
    return {call: min(numbers[owner]) for call, owner in owners.items() if owner in numbers}


def samples_of(text):
    """The samples of a text of metrics, by their names with their labels; none where a line is not as it must be."""
    types, samples = set(), {}
    for line in text.decode().splitlines():
        words = line.split(" ")
        if line.startswith("# TYPE "):
            types.add(words[2])
        elif not line.startswith("# HELP "):
            if len(words) != 2 or words[0].partition("{")[0] not in types or words[0] in samples:
                return None
            samples[words[0]] = float(words[1])
    return samples if text.endswith(b"\n") else None


def counts_of(exchanges):
    """The samples that tell of calls, by their lines and replies."""
    calls = [(json.loads(line)["cmd"], json.loads(reply)) for line, reply in exchanges if NUMBER.search(reply)]
    counts = collections.Counter()
    for command, reply in calls:
        counts['casa_calls_total{command="%s"}' % command] += 1
        counts['casa_refusals_total{command="%s"}' % command] += "refused" in reply
    return +counts


def metrics_agree(name, answer, exchanges, clock):
    """The metrics tell of these calls with their replies, and of this clock."""
    fields = dressed(METRICS, answer.body)
    check(f"{name}: metrics", (answer.status, answer.fields) == (200, fields), answer)
    samples = samples_of(answer.body)
    if check(f"{name}: metrics can be read", samples, answer.body):
        told = {sample: count for sample, count in samples.items() if "_total{" in sample and count}
        check(f"{name}: calls are counted", told == counts_of(exchanges), (told, counts_of(exchanges)))
        entries = sum(NUMBER.search(reply) is not None for _, reply in exchanges)
        seen = [samples.get(sample) for sample in ("casa_entries", "casa_clock_seconds")]
        check(f"{name}: entries and clock", seen == [entries, clock], (seen, entries, clock))


# Desks and browsers at once.

class Peer(threading.Thread):
    """A browser that works until it is told to stop, or until its connection is cut."""

    def __init__(self, port, seed):
        super().__init__(daemon=True)
        self.port, self.dice, self.is_to_stop, self.is_cut, self.fault = port, random.Random(seed), False, False, None

    def run(self):
        try:
            with Browser(self.port) as browser:
                while not self.is_to_stop:
                    self.work(browser)
                self.finish(browser)
        except OSError:
            self.is_cut = True
        except Exception:
            self.fault = traceback.format_exc()

    def finish(self, browser):
        pass


class Asker(Peer):
    """Sends lines, and looks then over another connection whether they were answered."""

    def __init__(self, port, seed, day):
        super().__init__(port, seed)
        self.day, self.exchanges, self.stale, self.looks, self.looker = day, [], [], 0, None

    def work(self, browser):
        lines = [self.day.line(self.dice) for _ in range(self.dice.randrange(1, 9))]
        replies = browser.post(b"".join(lines)).body.splitlines(keepends=True)
        self.exchanges += zip(lines, replies, strict=True)
        last = max((int(n) for reply in replies for n in NUMBER.findall(reply)), default=0)
        self.looker = self.looker or Browser(self.port)
        self.looks += 1
        if (seen := self.looker.get("/state").value()["n"]) < last:
            self.stale.append((last, seen))


class Trier(Peer):
    """Tries lines so many times, or until it is told to stop."""

    def __init__(self, port, seed, day, count):
        super().__init__(port, seed)
        self.day, self.count, self.told = day, count, []

    def work(self, browser):
        body = b"".join(self.day.line(self.dice) for _ in range(self.dice.randrange(1, 5)))
        self.told.append((body, browser.try_lines(body)))
        self.is_to_stop = self.is_to_stop or len(self.told) == self.count

    def judge(self, name, program, lines, most=COMPARED):
        """What it was told is what would have come behind the first calls of these lines. Gives how much of it was compared."""
        told = [(json.loads(answer.body.splitlines()[-1])["before"]["n"], body, answer) for body, answer in self.told
                if answer.status == 200]
        stood = [n for n, _, _ in told]
        check(f"{name}: no more is told than there is", max(stood, default=0) <= len(lines), stood[-3:])
        check(f"{name}: it never goes back", stood == sorted(stood), stood)
        some = self.dice.sample(told, min(most, len(told)))
        for n, body, answer in some:
            same(f"{name}: {body[:60]} behind {n}", answer, LINES, would_be(program, lines[:n], body))
        return len(some)


class Watcher(Peer):
    """Polls for what came of calls, and looks at what there is."""

    def __init__(self, port, seed):
        super().__init__(port, seed)
        self.position, self.news, self.seen, self.polls = 0, [], [], []

    def work(self, browser):
        self.poll(browser)
        reg, key = self.dice.randrange(4), self.dice.choice(lives.KEYS).decode()
        for target in ("/state", f"/list?R{reg}", f"/flight?{key}"):
            answer = browser.get(target)
            if answer.status == 200:
                self.seen.append((answer.value()["n"], target, answer.body))
        time.sleep(self.dice.random() / 100)

    def finish(self, browser):
        while self.poll(browser):
            pass

    def poll(self, browser):
        """Takes what came of calls since the last time, and tells whether there were any."""
        told = browser.get(f"/since?{self.position}").value()
        self.polls.append((self.position, told["n"]))
        self.news += told["news"]
        self.position = told["n"]
        return self.polls[-1][0] < self.position

    def judge(self, name, program, lines):
        """What it saw is what stands after the first calls of these lines, and what it was told is what came of them. Gives how
        much of what it saw was compared."""
        numbers = [n for n, _, _ in self.seen]
        most = max(numbers + [self.position])
        check(f"{name}: no more is seen than there is", most <= len(lines), (most, len(lines)))
        check(f"{name}: it never goes back", numbers == sorted(numbers), numbers)
        check(f"{name}: no poll has too much", all(old <= new <= old + MOST for old, new in self.polls), self.polls)
        came = [{**news, "desk": 0} for news in self.news]
        check(f"{name}: what came of calls", came == days.Session(program, b"".join(lines[:self.position])).news)
        some = self.dice.sample(self.seen, min(COMPARED, len(self.seen)))
        for n, target, body in some:
            check(f"{name}: {target} at {n}", Told(program, lines[:n]).is_at(target, body), body)
        return len(some)


def stopped(*threads):
    for thread in threads:
        thread.is_to_stop = True
    for thread in threads:
        has_ended, fault = checking.joined([thread]), getattr(thread, "fault", None)
        check("who is told to stop ends", has_ended and fault is None, fault)


def numbered(exchanges):
    """The lines with their replies, by the numbers of calls; no number is there twice."""
    calls, twice = {}, []
    for line, reply in exchanges:
        number = NUMBER.search(reply)
        if number and calls.setdefault(int(number[1]), (line, reply)) != (line, reply):
            twice.append(number[1])
    check("no number is told twice", not twice, twice)
    return calls
