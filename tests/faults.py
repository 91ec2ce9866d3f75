"""The faults that tests/planted plants, by the scripts that must tell them: docs/PLANTED.md has the same list."""

import dataclasses
import shlex
from typing import Optional


@dataclasses.dataclass
class Fault:
    """A fault in plain words, and a pattern that a line has which the script then says. It is planted by plant.c, with these of
    its words; by lines of a shell, in which $REAL is the program; or by other texts in files of a copy of the tree, of each its
    name, the old text and the new one."""
    what: str
    told: str
    plant: str = ""
    to: str = ""
    old: str = ""
    new: str = ""
    at: int = 0
    of: str = ""  # the program's first word with which plant.c is loaded, if not with each
    shell: str = ""
    edits: tuple = ()
    words: Optional[list] = None  # of the script, if not those that it has for all faults

    def is_one(self):
        """Whether anything is planted."""
        return bool(self.plant or self.shell or self.edits)

    def lines(self, library):
        """What a shell does that is to begin the program: it loads plant.c, with its words, and does what is said here."""
        lines = [self.shell] if self.shell else []
        if self.plant:
            words = {"": self.plant, "_TO": self.to, "_OLD": self.old, "_NEW": self.new, "_AT": str(self.at)}
            exported = " ".join(f"PLANT{name}={shlex.quote(text)}" for name, text in words.items())
            condition = f'[ "${{1-}}" != {self.of} ] || ' if self.of else ""
            lines.insert(0, f'{condition}export {exported} LD_PRELOAD="{library}${{LD_PRELOAD:+ $LD_PRELOAD}}"')
        return lines


@dataclasses.dataclass
class Script:
    """A script of tests/, with what stands behind its name, the words that keep it short, its faults, and the program that it
    looks at."""
    name: str
    words: list
    faults: list
    program: str = "casa"


def written(what, told, to, old, new, **more):
    """Another text is written."""
    return Fault(what, told, plant="write", to=to, old=old, new=new, **more)


def lost(what, told, to, old, **more):
    """A line is not written."""
    return Fault(what, told, plant="lose", to=to, old=old, **more)


def mended(what, told, old, new, **more):
    """What comes over a connection becomes something else."""
    return Fault(what, told, plant="read", old=old, new=new, **more)


def edited(what, told, *edits, **more):
    """Files of the tree have other texts."""
    return Fault(what, told, edits=edits, **more)


def in_the_page(what, told, old, new):
    """The page's script has another text, in the tree and in what the program writes."""
    return written(what, told, "output", old, new, of="page", edits=(("page/index.html", old, new),))


def another_status(word, old, new):
    """The program ends with another status."""
    return (f'if [ "${{1-}}" = {word} ]; then "$REAL" "$@" && status=0 || status=$?; '
            f'[ $status != {old} ] || status={new}; exit $status; fi')


# The last whole line of a journal is gone when the program begins with it.
LOST_LINE = """for word in "$@"; do
  if [ "${before-}" = --journal ] && [ -s "$word" ]; then python3 - "$word" << 'END'
import sys
text = open(sys.argv[1], "rb").read()
whole = text[:text.rfind(b"\\n") + 1]
open(sys.argv[1], "r+b").truncate(whole.rfind(b"\\n", 0, -1) + 1)
END
  fi
  before=$word
done"""
# A stranger makes calls that nobody else knows of.
STRANGER = """for word in "$@"; do [ "${before-}" != --port ] || port=$word; before=$word; done
(
  until { exec 3<> "/dev/tcp/127.0.0.1/$port"; } 2> /dev/null; do sleep 0.05; done
  for _ in {1..300}; do echo '{"cmd":"show","key":"NOBODY"}' >&3; read -r _ <&3; done
) > /dev/null 2>&1 < /dev/null &"""
# The program growths tells of a few calls alone, which saves time.
FEW_CALLS = 'if [ $# = 0 ]; then "$REAL" | head -n 20; exit; fi'
# plant.c is loaded only where there is a journal.
WITH_JOURNAL = '[[ " $* " == *" --journal "* ]] || unset LD_PRELOAD'


NO_SCRIPTS = {
    "all": "runs the other scripts, and counts what they say",
    "minutes": "counts seconds, and looks at nothing",
    "program": "builds a program, and looks at nothing",
    "unproved": "makes a program, and looks at nothing",
    "set-up": "installs what tests take, and looks at nothing",
}
SCRIPTS = [
    Script("run", [], [
        written("each SAM is an SRM", r"^first\.jsonl, by casa: status 0", "output", "SAM", "SRM"),
        Fault("who is not understood gets status 1 and not 2", r"^[a-z-]+, by casa: status 1$",
              shell='"$REAL" "$@" && status=0 || status=$?; [ $status != 2 ] || status=1; exit $status'),
        Fault("replies are held back until the input ends", "did not get its reply before the next was sent", plant="hold",
              of="run"),
        Fault("the clock is that of two days later", "^serve_and_turn", plant="clock"),
    ]),
    Script("calls", ["allocator::"], [
        edited("flights are issued a second early", r"^test .* FAILED", ("crates/casa_time/src/clock.rt", "= 7_200;", "= 7_201;")),
        edited("a test wants another text of a time", r"^test .*times_show_as_hour_and_minute .* FAILED",
               ("tests/rattle/calls/allocator/time.rattle", '(36_005, b"1000")', '(36_005, b"1001")')),
    ], program=""),
    Script("growths", ["PLANTED"], [
        written("a refusal of memory is passed over", "no refusal stops it", "output", "ok, refused", "ok, without",
                shell=FEW_CALLS),
        Fault("a call fails where memory is refused", "status 1 with requests", plant="status", old="ok, refused", new="1",
              shell=FEW_CALLS),
        Fault("the requests of the program are not seen", "its requests are not counted", shell=f"{FEW_CALLS}\nunset LD_PRELOAD"),
        Fault("some of the calls are not tried", "there are fewer than", shell=FEW_CALLS),
    ], program="growths"),
    Script("connections", [], [
        lost("some replies are lost", "no reply|timed out|did not end|nothing was counted", "sockets", '"n":20'),
        written("some calls have one number", "two calls have (one number|the number 1)", "sockets", '"n":20', '"n":19'),
        written("a SAM is an SRM", "in one session", "sockets", "SAM", "SRM"),
        Fault("one connection is served after the other", "did not end|timed out|nothing was counted|not done after",
              plant="serial"),
    ]),
    Script("connections --stay", [], [
        mended("a request of HTTP is read as a line", "who browses", "G", "X"),
        Fault("calls are made that nobody made", "numbers that nobody got", shell=STRANGER),
        Fault("some replies are told twice", "after the end|two calls have|in one session", plant="twice", to="sockets",
              old='"n":20'),
    ]),
    Script("stay", ["--connections", "1200", "--crowd", "50"], [
        mended("a request of HTTP is read as a line", "b'GET' cut behind", "G", "X"),
        Fault("each connection leaves memory behind", "stay: memory", plant="leak"),
        Fault("a server that has all its connections listens on", "nobody more", plant="open"),
        Fault("everybody may connect to the socket", "stay: mode", plant="modes"),
        Fault("the clock is that of two days later", "the clock of", plant="clock"),
        Fault("who is turned away is told of twice", "and of no other", plant="twice", to="errors", old="turned away", at=3),
        lost("that connections are accepted again is said only once", "it says so", "errors", "accepted again", at=2),
    ]),
    Script("browsers", ["--tries", "40"], [
        mended("a host in capitals is taken for the page's own", "refused: .*LOCALHOST", "LOCALHOST:", "localhost:"),
        mended("an origin in capitals is taken for the page's own", "refused: .*HTTP://127", "Origin: HTTP://1",
               "Origin: http://1"),
        mended("what is tried is sent", r"tries, seed \d+: ", "POST /try ", "POST /lines "),
        mended("a browser is told once more what it was told before", "what came of calls", "/since?1", "/since?0"),
        written("a state is that of before", r"looks, seed \d+: state", "sockets", '"n":1', '"n":0'),
        Fault("a connection over which lines are tried is cut off", "a trier ends", plant="cut", old="POST /try"),
    ]),
    Script("live", ["--need"], [
        mended("what is tried is sent", "a try changes nothing", "POST /try ", "POST /lines "),
        written("delays are rounded down", r": delay: ", "sockets", "big(Math.round(s/60))", "big(Math.floor(s/60))"),
    ]),
    Script("crash", ["--only", "kills", "--kills", "6"], [
        Fault("a file is put on the disk one time later", "what was told stands|whole lines are left", plant="late"),
        Fault("a journal has lost its last line when it is opened", "whole lines are left|numbers go on", shell=LOST_LINE,
              words=["--only", "kills", "--kills", "2"]),
        Fault("no call is answered but the first 30 of each life", "replies that desks were told", plant="silent", at=30,
              words=["--only", "kills", "--kills", "2"]),
        written("a line of the journal has the sum of another reply", "a line: |it begins|killed at its opening", "files",
                '"sum":1', '"sum":2'),
        written("a journal that is whole is said to be torn", "a journal is right", "output", "torn ", "torn 1", of="journal",
                words=["--only", "keep_sessions"]),
        Fault("a session on a full disk ends with status 0", "a session on a full disk", words=["--only", "fail_by_limit"],
              shell=another_status("run", 1, 0)),
    ]),
    Script("standby", ["--lives", "1", "--cuts", "2"], [
        edited("a torn line stays in the copy", "a torn copy goes on|a copy that is torn behind more goes on", (
            "examples/follow.py", "os.ftruncate(self.file, self.size)", "pass")),
        edited("a line that is no call is copied", "nothing torn is copied|it is no copy", (
            "examples/follow.py", 'json.loads(line.decode("ascii"))["n"] == self.calls + 1', "True")),
        Fault("a session that begins with a copy has lost its last line", "the numbers go on|no line is lost",
              shell=f'if [ "${{1-}}" = run ]; then {LOST_LINE}; fi'),
        Fault("all calls are of one desk", "its calls that stand|each call stands once", plant="digits", to="files",
              old='"desk":', new="1"),
    ]),
    Script("package", ["PROGRAM"], [
        edited("each package is another one", "the same bytes", (
            "package/make", '  settle "$root"\n', '  date > "$root/usr/share/doc/casa/now"\n')),
        edited("the manual has not all options", "the manual of casa", (
            "package/manual", "for line in lines:\n", "for line in lines[1:]:\n")),
        edited("a unit begins what is not there", "begins what is there", (
            "package/make", '$prefix/bin/:"', '$prefix/sbin/:"')),
        edited("the note tells of another program", "the note tells which program", (
            "package/make", 'sha256sum < "$program"', 'sha256sum < "$0"')),
    ]),
    Script("opinion", ["--sessions", "8"], [
        written("each SAM is an SRM", "^ *program .*SRM", "output", "SAM", "SRM"),
        written("a refusal has another number", "^ *program .*TooEarly", "output", '"code":12', '"code":11'),
        lost("a reply is lost", r"seed \d+, line \d+|replies", "output", '"n":77,'),
    ]),
    Script("lines", ["--calls", "8000"], [
        written("a line of the journal has a space, and says the same", "the journal, line", "files", '"sts":null',
                '"sts": null'),
        written("calls are of another desk", "the journal, line", "files", '"desk":0', '"desk":1'),
        Fault("an A that is written as an escape is read as a B", "journal check, line|the replies of sessions|the journal, line",
              shell='[[ " $* " != *" --journal "* ]] || exec "$REAL" "$@" < <(sed "s/u0041/u0042/g")'),
        lost("a call is not written", "journal check: ", "files", '"n":50,'),
        written("sessions go on at another number", "the replies of sessions", "output", '"n":90', '"n":91',
                shell=WITH_JOURNAL),
    ]),
    Script("import", [], [
        Fault("the word `import` is refused", "the program has the command `import`",
              shell='[ "${1-}" != import ] || exit 2'),
        lost("the second filing is dropped", r"output, line \d+", "output", '"cmd":"file"', of="import", at=2),
        lost("a row that is left out is not told of", r"standard error, line \d+", "errors", "TimeUnreadable", of="import"),
        Fault("rows that are left out give status 0", "status 0, wanted 1", shell=another_status("import", 1, 0)),
    ]),
    Script("compare", ["--pairs", "20"], [
        written("less delay is more", r"pair \d+", "output", " -", " +", of="compare"),
        lost("a flight that differs is left out", r"pair \d+", "output", "EHAMA22", of="compare", at=1),
        Fault("a day with faulty lines has status 0", "of faulty lines", shell=another_status("compare", 1, 0)),
    ]),
    Script("cluster", ["--seconds", "6", "--lines", "300"], [
        edited("a replica compares no replies", "who differs ends", (
            "cluster/replica.py", "entry.value != answer.reply", "False")),
        written("replicas answer otherwise than a session does", "the replies are those of one session", "output", "NoFlight",
                "NoFlught", shell=WITH_JOURNAL),
        edited("a desk sends a line twice", "each line stands once", (
            "cluster/desk.py", 'batch.append((f"{self.name}/{self.session}.{number}", line))',
            'batch += [(f"{self.name}/{self.session}.{number}{more}", line) for more in ("", "x" * (number == 3))]')),
    ]),
    Script("page", ["--days", "3"], [
        written("a figure of the record is another one", ": the page: status 0", "output", '"governed":1', '"governed":2',
                of="page"),
        Fault("a page of faulty lines has status 0", "with --strict", shell=another_status("page", 1, 0)),
        written("a summary has another figure", ": the summary", "output", " 1", " 2", of="summary"),
    ]),
    Script("page --browser", ["--need", "--days", "1"], [
        in_the_page("an hour has 50 minutes", r"\): (regulations|list|title|clock|facts|flight)", "Math.floor(t/60)%60",
                    "Math.floor(t/60)%50"),
        in_the_page("the page's script can't be read", "the browser's console", "const mins=s=>", "const mins=s=}"),
    ]),
    Script("schema", [], [
        edited("a moment of the third day is allowed", "what is wrong is refused|not refused, but it is wrong", (
            "docs/protocol.schema.json", '"maximum": 172799', '"maximum": 172800')),
        edited("a reply that is kept has another message", r"first\.jsonl, line \d+", (
            "examples/first.replies.jsonl", "SAM", "SEM")),
    ], program=""),
    Script("believed", [], [
        edited("a definition has lost its mark", "reached but not marked", (
            "crates/casa_flight/specs/Steps.antt", "-- to believe: the calls", "-- inner contracts: the calls")),
        edited("the page of the theorems has another line", r"THEOREMS\.md: line", (
            "docs/THEOREMS.md", "| Theorem | Definitions |", "| Theorems | Definitions |")),
        edited("a page says another number of lines", "does not say", (
            "README.md", "lines of definitions, for inner contracts", "lines of definitions for inner contracts")),
    ], program=""),
    Script("refused", [], [
        edited("the text that an edit is for is gone", "its old text stands 0 times", (
            "crates/casa_list/src/order.rt", "a < b", "a > b")),
        edited("an edit changes nothing", "it changes nothing", (
            "crates/casa_list/must-fail/enter_before_a_smaller_key.edit", "new:", "now:")),
    ], program=""),
    Script("benches", [], [
        edited("a bench calls what is gone", "bench/lists: .*inter", ("bench/lists", "list.enter(Comp", "list.inter(Comp")),
        edited("no bench has a program", "no bench has a program", *(
            (f"bench/{bench}", "\nbegin ", "\nbogin ") for bench in ("board", "desks", "lists", "room"))),
    ], program=""),
    Script("planted", ["compare"], [
        edited("nothing is planted", "is told", ("tests/plant.c", 'deed = word("PLANT");', 'deed = "";')),
        edited("a script has no fault", "scripts without a fault", (
            "tests/faults.py", '    Script("schema"', '    Script("compare"')),
    ]),
]
