"""What becomes of a small journal that is cut, torn or damaged, and of one that can't be opened: scenes of tests/crash."""

import concurrent.futures
import itertools
import json
import os
import pathlib
import re
import shutil
import subprocess
import tempfile

import checking
import lives
from checking import check
from lives import Day, Server, kept_of, replies_to, whole_end

CALLS = 60  # of the small journal
CUTS = 2000  # how many of its last bytes it is cut at
LOOK = b'{"cmd":"show","key":"NOBODY"}\n'


def check_refused(name, fault, path, before, status, said, line=None):
    """A program ended since it refused a journal, which is as it was."""
    at = f"{path}, line {line}: " if line else str(path)
    told = said.splitlines()
    found = told.index(f"casa: {fault}") if f"casa: {fault}" in told else None
    check(f"{name}: {fault}", status == 1 and found is not None, (status, said))
    check(f"{name}: where", found is not None and "".join(told[found + 1:]).startswith(at), (at, said))
    check(f"{name}: it stays as it was", path.read_bytes() == before)


def ended(words, lines=b"", **kind):
    """How a program ends that is given these lines: its status, its output, and what it says on standard error."""
    try:
        done = checking.run(words, input=lines, capture_output=True, **kind)
        return done.returncode, done.stdout, done.stderr.decode()
    except subprocess.TimeoutExpired:
        return None, b"", "it does not end"


def answered(program, path, *words, lines=LOOK, **kind):
    """A session on a journal."""
    return ended([program, "run", "--journal", path, *words], lines, **kind)


def is_fine(said):
    """Whether a program said on standard error what it did with a journal, and no fault."""
    return all(re.match(r"\d{4}-\d\d-\d\dT\d\d:\d\d:\d\dZ casa: /", line) for line in said.splitlines())


def checked(program, path):
    """What is said of a journal that is only looked at."""
    return ended([program, "journal", "check", path])


def looked_at(text):
    """What is to be printed of a journal with this text, in which no tick is refused but for its moment."""
    end = whole_end(text)
    moments = [json.loads(line)["at"] for line in text[:end].splitlines() if b'"cmd":"tick"' in line]
    return b"calls %d\nclock %d\nrules 1\ntorn %d\n" % (text.count(b"\n", 0, end), max(moments, default=0), len(text) - end)


class Small:
    """A small journal, in a folder of its own in memory, where there is one."""

    def __init__(self, program):
        place = "/dev/shm" if os.access("/dev/shm", os.W_OK) else None
        self.program, self.folder = program, tempfile.TemporaryDirectory(prefix="crash", dir=place)
        self.numbers = itertools.count(1)  # which threads take in turn
        path = self.put(b"")
        self.calls = [line for line in Day().lines(2 * CALLS, 4) if line != b"{}\n"][:CALLS]
        self.status, self.replies, self.said = answered(program, path, lines=b"".join(self.calls))
        self.text = path.read_bytes()
        self.lines = self.text.splitlines(keepends=True)

    def __enter__(self):
        return self

    def __exit__(self, *_):
        self.folder.cleanup()

    def put(self, text):
        """A file of its own with this text."""
        path = pathlib.Path(self.folder.name) / f"day{next(self.numbers)}-"
        path.write_bytes(text)
        return path

    def goes_on(self, text, *words):
        """What is wrong when a session begins with this text, of which the whole lines count: nothing, or something."""
        path = self.put(text)
        status, replies, said = answered(self.program, path, *words)
        end = whole_end(text)
        count, torn = text.count(b"\n", 0, end), text[end:]
        now, kept = path.read_bytes(), kept_of(path)
        wanted = b'{"code":2,"n":%d,"refused":"NoFlight"}\n' % (count + 1)
        right = (status == 0 and replies == wanted and now.startswith(text[:end]) and kept == ([torn] if torn else [])
                 and now.count(b"\n") == count + 1 and lives.wrong_line(now[end:-1], replies[:-1], count + 1) is None)
        for file in path.parent.glob(f"{path.name}*"):
            file.unlink()
        return [] if right else [(count, len(torn), status, replies, said, now[end:], kept)]


# Journals that a crash leaves.

def keep_sessions(program, _library):
    """Sessions on a journal, one after the other, are one session."""
    with Small(program) as small:
        wanted = replies_to(program, b"".join(small.calls))
        check("a session", small.status == 0 and small.replies == b"".join(wanted) and is_fine(small.said), small.said)
        check("its lines", [lives.wrong_line(line[:-1], reply[:-1], number) for number, (line, reply) in enumerate(zip(
            small.lines, wanted), 1)] == CALLS * [None], small.lines)
        check("its calls", list(map(lives.call_of, small.lines)) == list(map(lives.call_of, small.calls)))
        path = small.put(b"")
        replies = b""
        for begin in range(0, CALLS, 7):
            status, some, said = answered(program, path, lines=b"".join(small.calls[begin:begin + 7]))
            replies += some
            check("a session more", status == 0 and is_fine(said), (status, said))
        check("sessions", replies == small.replies)
        check("a journal is right", checked(program, path) == (0, looked_at(path.read_bytes()), ""), checked(program, path))
        server = Server(program, path, "--connections", "1")
        connection = server.first()
        with connection:
            reply = lives.asked_of(connection, [LOOK])
            check("a server on it", reply == [b'{"code":2,"n":%d,"refused":"NoFlight"}\n' % (CALLS + 1)], reply)
        check("which ends", server.ended()[0] == 0, server.said)


def cut(program, _library):
    """A journal is cut at each of its last bytes."""
    with Small(program) as small, concurrent.futures.ThreadPoolExecutor(4) as pool:
        sizes = range(max(0, len(small.text) - CUTS), len(small.text) + 1)
        wrong = [fault for faults in pool.map(lambda size: small.goes_on(small.text[:size]), sizes) for fault in faults]
        check(f"cut at {len(sizes)} bytes", len(sizes) > CUTS and not wrong, wrong[:2])
        for size in [*sizes][::97]:
            text = small.text[:size]
            path = small.put(text)
            check("a cut journal is looked at", checked(program, path) == (0, looked_at(text), ""), checked(program, path))
            check("and stays as it was", path.read_bytes() == text and not kept_of(path))


def tear(program, _library):
    """A journal has holes of NUL in its last blocks, of which one lacks its end; and what is behind is long, or of no line."""
    with Small(program) as small:
        blocks = range(len(small.text) // 512 * 512, len(small.text) - 6 * 512, -512)
        holes = [small.text[:begin] + bytes(len(small.text[begin:begin + 512])) + small.text[begin + 512:] for begin in blocks]
        holes += [text[:text.rfind(b"\0") + 1 + more] for text in holes for more in (0, 40)]
        begun = small.text + b'{"cmd":"tick","at":9'
        texts = [*holes, small.text[:begun.rfind(b"\n")], small.text + bytes(4096), small.text + b"\0" + small.lines[3][:-1],
                 small.text + bytes(lives.MOST_TORN), small.text + bytes(lives.MOST_TORN + 1),
                 begun + b" " * (lives.MOST_TORN - 20), begun + b" " * (lives.MOST_TORN - 19)]
        refused = 0
        for text in texts:
            if lives.is_refused(text[whole_end(text):]):
                refused += 1
                line = text.count(b"\n", 0, whole_end(text)) + 1
                path = small.put(text)
                check_refused("torn by no crash", "JournalBad", path, text, *answered(program, path)[::2], line)
                check_refused("torn by no crash, looked at", "JournalBad", path, text, *checked(program, path)[::2], line)
                check("torn by no crash: nothing is kept", kept_of(path) == [])
                path.unlink()
                wrong = small.goes_on(text, "--force")
            else:
                wrong = small.goes_on(text)
            check("torn", not wrong, wrong)
        check("some of it was refused, some not", 4 < refused < len(texts) - 4, (refused, len(texts)))
        keep_all(program, small)


def keep_all(program, small):
    """Of a journal that is torn again and again each torn end is kept, also beside a file of another's."""
    path, wanted = small.put(small.text), [b"mine"]
    pathlib.Path(f"{path}.torn").write_bytes(wanted[0])
    for number in range(3):
        with open(path, "ab") as file:
            file.write(b"torn %d" % number)
        wanted.append(b"torn %d" % number)
        status, _, said = answered(program, path)
        is_said = f"are kept in {path}.torn.{number + 2}\n" in said
        check("torn again", status == 0 and is_said and kept_of(path) == wanted, (said, kept_of(path)))
    with open(path, "ab") as file:
        file.write(b"torn")
    server = Server(program, path, "--quiet", folder=small.folder.name)
    first = server.first()
    server.kill()
    check("a quiet server says what it cuts", first and [line[21:] for line in server.said] == [
        f"casa: {path}: the 4 bytes behind its last whole line are kept in {path}.torn.5\n"], server.said)


# Journals that are damaged.

def damaged(lines, numbers):
    """Damages of a journal at these lines: a name, the fault, its line, and the text."""
    def bad(name, number, *instead, fault="JournalBad"):
        return name, fault, number, b"".join([*lines[:number - 1], *instead, *lines[number:]])
    for number in numbers:
        line = lines[number - 1]
        label = json.loads(line)
        digit = b'"sum":%d' % label["sum"]
        other = digit[:-1] + (b"1" if digit[-1:] != b"1" else b"2")
        yield bad("another sum", number, line.replace(digit, other), fault="ReplayDiffers")
        yield bad("no line", number)
        yield bad("a line twice", number + 1, line, lines[number])
        yield bad("an empty line", number, b"\n", line)
        yield bad("other rules", number, line.replace(b'"rules":1', b'"rules":2'))
        yield bad("another position", number, line.replace(b'"n":%d' % number, b'"n":%d' % (number + 1)))
        yield bad("no position", number, line.replace(b'"n":%d,' % number, b""))
        yield bad("no desk", number, line.replace(b'"desk":%d,' % label["desk"], b""))
        yield bad("no sum", number, line.replace(digit, b'"som":1'))
        yield bad("no call", number, line.replace(b'"cmd":"', b'"cmd":"un'))
        yield bad("no JSON", number, line[:-2] + b"\n")
        yield bad("a line of another", number, b"hello\n", line)
        yield bad("another reply", number, b'{"cmd":"show","desk":0,"key":"NOBODY","n":%d,"rules":1,"sum":%d}\n' % (
            number, label["sum"]), fault="ReplayDiffers")


def damage(program, _library):
    """A journal is damaged: it is refused by its first line that is not right, and stays as it was."""
    with Small(program) as small:
        accepted = [number for number, reply in enumerate(small.replies.splitlines(), 1) if b"refused" not in reply]
        numbers = [accepted[0], accepted[len(accepted) // 2], max(number for number in accepted if number < CALLS)]
        for name, fault, line, text in damaged(small.lines, numbers):
            path = small.put(text)
            check_refused(f"{name} in a session", fault, path, text, *answered(program, path)[::2], line)
            check_refused(f"{name} looked at", fault, path, text, *checked(program, path)[::2], line)
            if numbers[0] + 1 < line < numbers[2]:
                check_refused(f"{name} in a server", fault, path, text, *Server(program, path).ended(), line)
                status, _, said = answered(program, path, "--force")
                check_refused(f"{name} with --force", fault, path, text, status, said, line)
            check(f"{name}: nothing is kept", kept_of(path) == [])


# Journals that can't be opened.

def refuse_to_open(program, library):
    """A journal that another program has, and files that are none."""
    with Small(program) as small:
        path = small.put(small.text)
        server = Server(program, path)
        first = server.first()
        for name, end in (("a server", Server(program, path, folder=tempfile.gettempdir()).ended()),
                          ("a session", answered(program, path)[::2])):
            check_refused(f"{name} on a journal in use", "JournalNotOpened", path, small.text, *end)
        with first:
            reply = lives.asked_of(first, [LOOK])
            check("who has it goes on", reply == [b'{"code":2,"n":%d,"refused":"NoFlight"}\n' % (CALLS + 1)], reply)
        server.kill()
        refuse_odd_files(program, small)
        refuse_without_rights(program, small)


def refuse_odd_files(program, small):
    folder = pathlib.Path(small.folder.name)
    os.mkfifo(folder / "pipe")
    (folder / "folder").mkdir()
    (folder / "lost").symlink_to(folder / "nowhere" / "day")
    for path in (folder / "pipe", folder / "folder", folder / "nowhere" / "day", folder / "lost", pathlib.Path("/dev/null"),
                 folder / "day1" / "day"):
        for end in (answered(program, path), Server(program, path, folder=folder).ended(), checked(program, path)):
            check(f"{path} is no journal", end[0] == 1 and f"casa: JournalNotOpened\n{path}" in end[-1], end)
    check("no file is made", not (folder / "nowhere").exists())
    status, _, said = checked(program, folder / "none")
    check("no journal to look at", status == 1 and "casa: JournalNotOpened" in said and not (folder / "none").exists(), said)


def refuse_without_rights(program, small):
    """A file that may not be read or not be written, and one in a folder where none may be made, as a user without rights."""
    own = shutil.copy(program, pathlib.Path(small.folder.name) / "casa")
    words = {"user": 65534, "group": 65534, "extra_groups": []} if os.getuid() == 0 else {}
    pathlib.Path(small.folder.name).chmod(0o755)
    for mode in (0o444, 0o222, 0o000):
        path = small.put(small.text)
        path.chmod(mode)
        refused(own, path, words)
        check(f"mode {mode:o}: it stays as it was", path.read_bytes() == small.text)
    folder = pathlib.Path(small.folder.name) / "closed"
    folder.mkdir(mode=0o555)
    refused(own, folder / "day", words)
    check("no file is made there", not (folder / "day").exists())


def refused(program, path, words):
    status, replies, said = answered(program, path, **words)
    check(f"without rights {path.name}", (status, replies) == (1, b"") and said.startswith(
        f"casa: JournalNotOpened\n{path}"), (status, said))


SCENES = (keep_sessions, cut, tear, damage, refuse_to_open)
