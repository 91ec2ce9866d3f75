#!/usr/bin/env python3
"""Keeps a copy of a journal that casa writes, here or on another machine, for a standby.

The whole lines of FILE come to COPY as they are written, and are put on the disk. HOST is asked by ssh, without a password.
It goes on until it is ended; where HOST can't be reached, or FILE is not there, it says so once and tries again each second.
COPY is always a beginning of FILE. Where it is none, since FILE lost calls or went on otherwise, it stays as it is, and this
ends with status 1. So it does where another program has COPY, as casa does that goes on with it.
"""
import argparse
import datetime
import fcntl
import hashlib
import json
import os
import shlex
import subprocess
import sys
import time

NO_FILE = 9  # the status with which the other side says that there is no FILE
SSH = ["ssh", "-o", "BatchMode=yes", "-o", "ConnectTimeout=10", "-o", "ServerAliveInterval=5", "-o", "ServerAliveCountMax=3"]
PIECE = 1 << 20  # how many bytes are read at a time, and the most that a line can have


class Broken(Exception):
    """Why no more of FILE can be had now."""


class Parted(Exception):
    """Why nothing more can ever be put behind COPY."""


class Ahead(Exception):
    """COPY has all calls of FILE, which are so many, and more."""


def say(words):
    now = datetime.datetime.now(datetime.timezone.utc)
    print(f"{now:%Y-%m-%dT%H:%M:%SZ} casa-follow: {words}", file=sys.stderr, flush=True)


class Copy:
    """The copy, which nobody else has; its whole lines count."""

    def __init__(self, path):
        self.path, self.file = path, os.open(path, os.O_RDWR | os.O_CREAT | os.O_CLOEXEC, 0o640)
        try:
            fcntl.flock(self.file, fcntl.LOCK_EX | fcntl.LOCK_NB)
        except BlockingIOError:
            raise Parted(f"{path}: another program has it") from None
        self.calls, self.size, self.sum = 0, 0, hashlib.sha256()
        with open(path, "rb") as lines:
            for line in lines:
                if not self.counts(line):
                    self.judge(line)

    def judge(self, torn):
        """Whatever is no line of a journal, and no beginning of one, is somebody else's."""
        if torn.endswith(b"\n") or not torn.startswith(b'{"'):
            raise Parted(f"{self.path}, line {self.calls + 1}: it says no call at its position")

    def counts(self, line):
        """Counts a line, if it is the whole one of the next call."""
        try:
            is_next = line.endswith(b"\n") and json.loads(line.decode("ascii"))["n"] == self.calls + 1
        except (ValueError, TypeError, KeyError):
            is_next = False
        if is_next:
            self.calls, self.size = self.calls + 1, self.size + len(line)
            self.sum.update(line)
        return is_next

    def add(self, lines):
        """Puts the first of these lines that count behind the others, and on the disk. Whether all did."""
        os.ftruncate(self.file, self.size)  # of a torn line, which comes again
        begin = os.lseek(self.file, self.size, os.SEEK_SET)
        all_count = all(map(self.counts, lines))
        text = b"".join(lines)[:self.size - begin]
        while text:
            text = text[os.write(self.file, text):]
        os.fdatasync(self.file)
        return all_count


def asked(source, command):
    """A command for the machine that has FILE, which stands in it as {}."""
    host, colon, file = source.partition(":")
    if not colon or "/" in host:
        host, file = "", source
    name = shlex.quote(file if file.startswith("/") else "./" + file)
    command = f"[ -f {name} ] || exit {NO_FILE}; {command.format(name)}"
    return [*SSH, host, command] if host else ["sh", "-c", command]


def tail(copy, once):
    """Prints the sum of as many bytes of FILE as COPY has, and then what is behind; the whole file anew, where FILE becomes
    another one, so that this is seen."""
    return f"head -c {copy.size} {{0}} | sha256sum && exec tail -c +{copy.size + 1}{'' if once else ' -F'} {{0}}"


def follow(source, copy, once):
    """Copies what comes, until nothing more does. The bytes that are behind the last whole line."""
    process = subprocess.Popen(asked(source, tail(copy, once)), bufsize=0, stdin=subprocess.DEVNULL, stdout=subprocess.PIPE,
                               stderr=subprocess.PIPE)
    try:
        told, rest = process.stdout.readline().decode().split()[:1], b""
        if told and told != [copy.sum.hexdigest()]:
            part(source, copy)
        if told:
            say(f"{copy.path} has {copy.calls} calls, and goes on with those of {source}")
        while told and (piece := os.read(process.stdout.fileno(), PIECE)):
            *lines, rest = (rest + piece).split(b"\n")
            if not copy.add([line + b"\n" for line in lines]) or len(rest) > PIECE:
                raise Broken(f"{source}, line {copy.calls + 1}: it says no call at its position")
    except BaseException:
        process.kill()
        raise
    finally:
        why = process.communicate()[1].decode(errors="replace").strip().splitlines()[-1:]
    if process.returncode or not once:
        if process.returncode == NO_FILE:
            raise Broken(f"there is no {source}")
        raise Broken(": ".join([f"{source} can't be read", *why]))
    return rest


def part(source, copy):
    """Tells how FILE and COPY differ, where FILE does not begin with COPY."""
    done = subprocess.run(asked(source, "cat {0}"), stdin=subprocess.DEVNULL, capture_output=True, check=False)
    if done.returncode:
        raise Broken(f"{source} can't be read")
    text = done.stdout.partition(b"\0")[0]
    text = text[:text.rfind(b"\n") + 1]
    with open(copy.path, "rb") as lines:
        if lines.read(len(text)) == text:
            raise Ahead(text.count(b"\n"))
    raise Parted(f"{source} does not begin with the {copy.calls} calls of {copy.path}")


def keep(source, copy, once):
    """Follows until it is ended, or once; tries again where that is of use."""
    said = None
    while True:
        calls = copy.calls
        try:
            rest = follow(source, copy, once)
            torn = f", and not the {len(rest)} bytes behind" if rest else ""
            say(f"{copy.path} has all {copy.calls} calls of {source}{torn}")
            return
        except Ahead as left:
            if once:
                say(f"{copy.path} has all {left} calls of {source}, and {copy.calls - left.args[0]} more")
                return
            raise Parted(f"{source} has only the first {left} of the {copy.calls} calls of {copy.path}") from None
        except Broken as why:
            if once:
                raise
            if calls != copy.calls or said != str(why):
                say(f"{why}; it is tried again")
                said = str(why)
        time.sleep(1)


def main():
    words = argparse.ArgumentParser(description=__doc__, formatter_class=argparse.RawDescriptionHelpFormatter)
    words.add_argument("--once", action="store_true", help="copy what FILE has, and end; with status 1 where that can't be had")
    words.add_argument("source", metavar="[HOST:]FILE", help="the journal that casa writes")
    words.add_argument("copy", metavar="COPY", help="the copy, which is made if it is not there")
    given = words.parse_args()
    if given.source.startswith(":"):
        words.error("no HOST stands before the colon")
    try:
        keep(given.source, Copy(given.copy), given.once)
    except (Broken, Parted, OSError) as why:
        say(why)
        sys.exit(1)
    except KeyboardInterrupt:
        sys.exit(130)


if __name__ == "__main__":
    main()
