"""What the scripts in tests/ have in common: how they count, what they pass over, how long they wait, what they draw, and how
they end.

All that a script looks at goes through `check` or `same`. Its last line is `NAME: N passed, M failed`, and its status 0 where all
passed. Where it might have looked at nothing it asks for so much `at_least`. What is missing here so that a part can't be tried is
`needed`: in one line it is said what is passed over, and with `--need` that is a fault.

Nothing waits for so many seconds in all, since a busy machine may need more: one waits as long as something goes on, and gives
up when nothing of what is looked at has changed for QUIET seconds. Where a script counts nothing for LONG seconds it is ended.
"""

import argparse
import collections
import contextlib
import errno
import faulthandler
import itertools
import os
import pathlib
import random
import signal
import socket
import subprocess
import sys
import threading
import time
import traceback

HERE = pathlib.Path(__file__).resolve().parent
TOP = HERE.parent
NAME = pathlib.Path(sys.argv[0]).name
QUIET = 60  # seconds in which nothing happens until one gives up
LONG = 600  # seconds in which nothing is counted until a script is ended
SPUN = 600  # seconds of a processor that a program may take before it ends
MUCH = 20_000  # replies or lines that may come before what is waited for, where nothing else is their end
OFTEN = 3  # times that a check of one name is told where it fails
PORTS = itertools.cycle(range(12_000 + os.getpid() % 1000 * 20, 32_700))
passed, failed, over, steps = 0, 0, 0, 0
counting, told_often = threading.RLock(), collections.Counter()
asked = None  # the words that the script was given


# What is counted.

def check(name, holds, seen=""):
    """Counts whether something holds, and tells where it does not, three times of each name. Gives whether it holds."""
    global passed, failed
    with counting:
        if holds:
            passed += 1
            return True
        failed += 1
        told_often[name] += 1
        if told_often[name] <= OFTEN:
            print(f"{NAME}: {name}: {seen[-1500:] if isinstance(seen, str) else repr(seen)[:1500]}", flush=True)
        return False


def same(name, found, wanted):
    """Counts whether what was found is what is wanted."""
    return check(name, found == wanted, f"found {found}, wanted {wanted}"[:1500])


def at_least(name, count, least):
    """Counts whether there was so much of what a script looks at, so that it doesn't pass for nothing."""
    return check(f"{name}: at least {least}", count >= least, count)


def step():
    """Says that something goes on where nothing is counted."""
    global steps
    steps += 1


def tried(scene, *words):
    """Lets a scene be. Where it can't go on, or looks at nothing, that is a fault."""
    before = passed + failed
    try:
        scene(*words)
    except Exception:
        check(f"{scene.__name__} can't go on", False, traceback.format_exc())
    if passed + failed == before:
        check(f"{scene.__name__} looks at something", False)


def needed(what, is_here, part):
    """Whether something is here that a part of a script needs. Else it is said what is passed over, and that is a fault with
    `--need`."""
    global over
    if not is_here:
        over += 1
        with counting:
            print(f"{NAME}: {what} is not here, so that this is passed over: {part}", flush=True)
        if asked.need:
            check(f"{what} is here", False, part)
    return bool(is_here)


def end():
    """Tells how many passed and failed, and ends the script."""
    if not passed + failed + over:
        check("something is looked at", False)
    print(f"{NAME}: {passed} passed, {failed} failed")
    sys.exit(1 if failed else 0)


# How a script begins.

def words(doc, seed=False, need=False, program=True):
    """The words that a script understands: the program, the seed of all that is drawn, and `--need`."""
    parser = argparse.ArgumentParser(description=doc, formatter_class=argparse.RawDescriptionHelpFormatter)
    if program:
        parser.add_argument("program", nargs="?", help="the program, if not that of tests/program")
    if seed:
        parser.add_argument("--seed", type=int, help="the seed, which is else drawn")
    if need:
        parser.add_argument("--need", action="store_true", help="fails where something is not here that a part needs")
    return parser


def begun(parser, without="no word"):
    """The words that were given, with the program, which is proved and built where none is given, unless it is the word without
    one; and the seed, which is printed first. From now on the script is watched."""
    global asked
    asked = parser.parse_args()
    asked.need = getattr(asked, "need", False)
    if "program" in asked and not getattr(asked, without, False):
        asked.program = os.path.abspath(asked.program or subprocess.check_output([HERE / "program"], text=True).strip())
    if "seed" in asked:
        asked.seed = random.SystemRandom().randrange(10 ** 9) if asked.seed is None else asked.seed
        print(f"{NAME}: seed {asked.seed}", flush=True)
    threading.Thread(target=watch, daemon=True).start()
    return asked


def dice(name):
    """Draws by the seed of the script, for what has this name."""
    return random.Random(f"{asked.seed} {name}")


def watch():
    """Ends the script, and what it started, where it has counted nothing for a long time."""
    seen, patience = None, 0
    while patience < LONG:
        seen, patience = (now := (passed, failed, steps)), patience + 1 if now == seen else 0
        time.sleep(1)
    print(f"{NAME}: nothing was counted for {LONG} seconds", flush=True)
    faulthandler.dump_traceback()
    for child in below(os.getpid()):
        with contextlib.suppress(ProcessLookupError):
            os.kill(child, signal.SIGKILL)
    os._exit(1)


# How long one waits.

def until(holds, moves=lambda: None, pause=0.02, quiet=QUIET):
    """Waits until something holds, and gives what it is then, or what it was at last. It is given up when `moves`, which is what
    goes on, has not changed for so many seconds; it must not go on for ever. A turn counts for one second at most: while the script itself does not run,
    nothing is given up."""
    seen, patience, last = moves(), 0, time.monotonic()
    while not (found := holds()) and patience < quiet:
        time.sleep(pause)
        now, seconds = moves(), time.monotonic() - last
        last += seconds
        if now == seen:
            patience += min(1, seconds)
        else:
            seen, patience = now, 0
            step()
    return found


def joined(threads, moves=lambda: None):
    """Waits until threads have ended, as long as something goes on. Gives whether they have."""
    threads = list(threads)
    return until(lambda: not any(thread.is_alive() for thread in threads), moves)


def below(process):
    """The processes below one, by their numbers."""
    for file in pathlib.Path(f"/proc/{process}/task").glob("*/children"):
        with contextlib.suppress(OSError):
            for child in map(int, file.read_text().split()):
                yield child
                yield from below(child)


def processor_seconds(*processes):
    """How long these processes have had a processor, with all below them."""
    ticks = 0
    for process in [*processes, *(child for process in processes for child in below(process))]:
        with contextlib.suppress(OSError):
            fields = pathlib.Path(f"/proc/{process}/stat").read_text().rpartition(")")[2].split()
            ticks += sum(map(int, fields[11:15]))
    return ticks / os.sysconf("SC_CLK_TCK")


def run(words, input=None, check=False, **kind):
    """As subprocess.run, as long as the program works: it is killed when it has had no processor for QUIET seconds, or one for
    SPUN seconds, which is subprocess.TimeoutExpired."""
    if kind.pop("capture_output", False):
        kind.update(stdout=subprocess.PIPE, stderr=subprocess.PIPE)
    if input is not None:
        kind["stdin"] = subprocess.PIPE
    with subprocess.Popen(words, **kind) as process:
        seconds = -1
        while True:
            try:
                output, said = process.communicate(input, timeout=QUIET)
                break
            except subprocess.TimeoutExpired:
                input, had, seconds = None, seconds, processor_seconds(process.pid)
                if had == seconds or seconds > SPUN:
                    process.kill()
                    raise
                step()
    done = subprocess.CompletedProcess(words, process.returncode, output, said)
    if check:
        done.check_returncode()
    return done


# Ports.

def free_port():
    """A port on which nobody listens, and none that a connection gets by itself: another one each time. A program that another
    thread is about to start holds this socket too for a moment, and a server may bind the port nevertheless."""
    while True:
        with counting, socket.socket() as free, contextlib.suppress(OSError):
            port = next(PORTS)
            free.setsockopt(socket.SOL_SOCKET, socket.SO_REUSEADDR, 1)
            free.bind(("127.0.0.1", port))
            return port


def is_listening(port):
    """Whether somebody listens at a port."""
    with socket.socket() as probe:
        return probe.connect_ex(("127.0.0.1", port)) == 0


def is_refused(port):
    """Whether nobody listens at a port. One whom nobody takes in waits there, and is not refused."""
    with socket.socket() as probe:
        probe.settimeout(1)
        return probe.connect_ex(("127.0.0.1", port)) == errno.ECONNREFUSED


def is_port_taken(said):
    """Whether a server says that another program has its port, which can be so for the first one that it is given."""
    return any("casa: BindFailed" in line for line in said)
