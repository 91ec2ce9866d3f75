"""Sessions of `casa run`, for cluster/replica.py."""

import asyncio
import contextlib
import hashlib
import itertools
import os
import pathlib
import re
import shutil

LONGEST = 64 << 20  # bytes of a reply
OPENED = re.compile(rb"calls answered again: (\d+)")


class Ended(Exception):
    """Casa has ended, and was not told to."""


class Session:
    """A casa that answers lines."""

    def __init__(self, process):
        self.process, self.said = process, []

    @classmethod
    async def opened(cls, program, journal):
        """One on a journal, and how many calls that has. Where a casa of before still has it, that one is waited for."""
        for _ in range(100):
            session = cls(await asyncio.create_subprocess_exec(
                program, "run", "--journal", journal, stdin=asyncio.subprocess.PIPE, stdout=asyncio.subprocess.PIPE,
                stderr=asyncio.subprocess.PIPE, limit=LONGEST, start_new_session=True))
            async for line in session.process.stderr:
                session.said.append(line)
                if found := OPENED.search(line):
                    session.listener = asyncio.create_task(session.listen())
                    return session, int(found[1])
            await session.process.wait()
            if b"another program has it" not in b"".join(session.said):
                break
            await asyncio.sleep(0.1)
        raise Ended(session.told())

    async def listen(self):
        async for line in self.process.stderr:
            self.said.append(line)

    def told(self):
        return b"".join(self.said).decode(errors="replace").strip()

    async def write(self, line):
        try:
            self.process.stdin.write(line + b"\n")
            await self.process.stdin.drain()
        except OSError:
            await asyncio.sleep(1)  # whoever reads the replies finds out why

    async def reply(self):
        """The next reply, without its line feed; none at the end."""
        line = await self.process.stdout.readline()
        return line[:-1] if line.endswith(b"\n") else None

    def kill(self):
        if self.process.returncode is None:
            with contextlib.suppress(ProcessLookupError):
                self.process.kill()


def folder_of_twin(journal):
    """Where the twin of a replica on this journal has its own, in memory if that can be had."""
    path, memory = pathlib.Path(journal).resolve(), pathlib.Path("/dev/shm")
    parent = memory if os.access(memory, os.W_OK) else path.parent
    return parent / f"casa-twin-{hashlib.sha256(str(path).encode()).hexdigest()[:16]}"


class Twin:
    """A session that answers again what a journal has, as far as that has it, on a journal of its own: the two must have the same
    lines. Its journal need not last."""

    @classmethod
    async def begin(cls, program, journal, calls):
        """One that has the first calls of the journal behind it."""
        twin = cls()
        twin.folder = folder_of_twin(journal)
        shutil.rmtree(twin.folder, ignore_errors=True)  # of a replica that was killed
        twin.folder.mkdir(mode=0o700)
        twin.theirs = open(journal, "rb")
        with open(twin.folder / "journal", "wb") as copy:
            copy.writelines(itertools.islice(iter(twin.theirs.readline, b""), calls))
        twin.session, _ = await Session.opened(program, str(twin.folder / "journal"))
        twin.own = open(twin.folder / "journal", "rb")
        twin.own.seek(0, os.SEEK_END)
        return twin

    async def answer(self, line):
        await self.session.write(line)
        reply = await self.session.reply()
        if reply is None:
            raise Ended(f"a casa that was to answer again has ended. {self.session.told()}")
        return reply

    def agrees(self):
        """Whether its journal goes on as the other one does."""
        return self.own.readline() == self.theirs.readline()

    def end(self):
        self.session.kill()
        self.own.close()
        self.theirs.close()
        shutil.rmtree(self.folder, ignore_errors=True)
