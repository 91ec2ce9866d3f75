"""What `casa import` is to write and to tell of files of traffic, worked out here anew from the rules of docs/IMPORT.md alone.

It shares nothing with the program. tests/import compares the two, and tries this file with one thing in it turned at a time:
each such mistake must be found.
"""

import collections
import dataclasses
import datetime
import json
import re
from typing import Optional

MARK = b"\xef\xbb\xbf"
NAME = re.compile(rb"[A-Z0-9]{1,10}\Z")
NUMBER = re.compile(rb"[0-9]{1,4}\Z")
STATUSES = (b"HEAD", b"SAR", b"MEDEVAC", b"FFR", b"ATFMX")
LAST_MOMENT = 172_799
MOST_TAXI = 3_600
MOST_CROSSINGS = 32
MOST_PERIODS = 24
MOST_RATE = 600
MOST_SPAN = 86_400
MOST_REGULATIONS = 256
TIME_OF_DAY = re.compile(rb"(\d\d):(\d\d)(?::(\d\d))?\Z")
DAY_FIRST = re.compile(rb"(\d\d)-(\d\d)-(\d{4}) (\d\d:\d\d:\d\d)\Z")
YEAR_FIRST = re.compile(rb"(\d{4})-(\d\d)-(\d\d)[ T](\d\d:\d\d(?::\d\d)?)\Z")
ARCHIVE = ("ECTRL ID", "ADEP", "ADES", "FILED OFF BLOCK TIME", "FILED ARRIVAL TIME")
CROSSINGS = ("ECTRL ID", "AUA ID", "Entry Time")
REGULATIONS = ("reg", "loc", "from", "to", "rate")


class ColumnFault(Exception):
    """A column that is needed is not there, or stands twice."""


class LeftOut(Exception):
    """A row is left out, for this reason."""


@dataclasses.dataclass
class Asked:
    """What the words ask for: the files by their names, and the texts of these."""
    day: str
    flights: Optional[str] = None
    crossings: Optional[str] = None
    regs: Optional[str] = None
    taxi: int = 600
    locations: Optional[str] = None
    by: str = "file"
    strict: bool = False
    texts: dict = dataclasses.field(default_factory=dict)

    def words(self):
        """The words of the command line."""
        options = {"flights": self.flights, "crossings": self.crossings, "regs": self.regs, "day": self.day,
                   "taxi": None if self.taxi == 600 else str(self.taxi), "locations": self.locations,
                   "by": None if self.by == "file" else self.by}
        given = [word for name, value in options.items() if value is not None for word in (f"--{name}", value)]
        return ["import", *given, *(["--strict"] if self.strict else [])]


# How a file is read.

class Table:
    """A file: its header, and its rows with the lines on which they begin."""

    def __init__(self, kind, name, text, seen):
        self.kind, self.name, self.seen = kind, name, seen
        (_, self.header), *rows = rows_of(text, seen) or [(1, [])]
        self.lines, self.rows = [line for line, _ in rows], [fields for _, fields in rows]
        self.left_out = {}  # by the number of the row: the reason

    def column(self, title):
        """Where the column stands that has this title."""
        places = self.places(title)
        if len(places) != 1:
            fault = f"{'TwoColumns' if places else 'NoColumn'} {title}"
            self.note(fault)
            raise ColumnFault(f"{self.name}: {fault}")
        return places[0]

    def places(self, title):
        return [place for place, one in enumerate(self.header) if one == title.encode()]

    def columns(self, titles):
        return {title: self.column(title) for title in titles}

    def checked(self, fields):
        """The fields of a row, if they are as many as the titles."""
        if len(fields) != len(self.header):
            raise LeftOut("Uneven")
        return fields

    def leave_out(self, number, reason):
        self.left_out[number] = str(reason)
        self.note(reason)

    def note(self, fault):
        """Counts a fault, whichever of the pairs of locations and times it is of, and its name alone."""
        name, column = re.match(r"(\w+)(.*?)\d*\Z", str(fault)).groups()
        self.seen[f"{name} of {self.kind}"] += 1
        self.seen[f"{name}{column} of {self.kind}"] += bool(column)

    def told(self):
        """A line for each row that is left out."""
        return [f"{self.name}:{self.lines[number]}: {reason}" for number, reason in sorted(self.left_out.items())]

    def counted(self, made):
        """The last line, of all rows."""
        return f"{self.name}: {len(self.rows)} rows, {made}{len(self.left_out)} left out"


def rows_of(text, seen):
    """The rows of a text of comma-separated values, the header too, each behind its line."""
    at = len(MARK) if text.startswith(MARK) else 0
    header = re.compile(rb"[\r\n]*([^\r\n]*)").match(text, at)[1]
    separator = b";" if b";" in header else b","
    bare = rb"[^\r\n" + separator + rb"]*"
    field = re.compile(rb'"((?:[^"]|"")*)(?:"(' + bare + rb"))?|(" + bare + rb")")
    rows, line, ends = [], 1, re.compile(rb"[\r\n]*")
    while True:
        begin = ends.match(text, at).end()
        line += text.count(b"\n", at, begin)
        if begin == len(text):
            return rows
        fields, at = fields_at(text, begin, field, separator)
        rows.append((line, fields))
        line += text.count(b"\n", begin, at)
        seen["row on several lines"] += b"\n" in text[begin:at]


def fields_at(text, at, field, separator):
    """The fields of the row that begins there, and where it ends."""
    fields = []
    while True:
        found = field.match(text, at)
        quoted, behind, bare = found.groups()
        fields.append(bare if quoted is None else quoted.replace(b'""', b'"') + (behind or b""))
        at = found.end()
        if text[at:at + 1] != separator:
            return fields, at
        at += 1


# Texts of fields.

def name_in(fields, place, title, reason):
    """A name of 1 to 10 characters."""
    if not NAME.match(fields[place]):
        raise LeftOut(f"{reason} {title}")
    return fields[place].decode()


def named_in(fields, place):
    """The name that stands in a column, if one does, also where the row has more or fewer fields than there are titles."""
    return fields[place].decode() if place < len(fields) and NAME.match(fields[place]) else None


def time_in(fields, place, title, midnight):
    """A time, as seconds from this midnight."""
    second = second_of(fields[place], midnight)
    if second is None:
        raise LeftOut(f"TimeUnreadable {title}")
    if second < 0:
        raise LeftOut(f"TimeBefore {title}")
    if second > LAST_MOMENT:
        raise LeftOut(f"TimeAfter {title}")
    return second


def second_of(text, midnight):
    """How many seconds behind midnight of a day a time is, if it is one."""
    if TIME_OF_DAY.match(text):
        return of_day(text, 47)
    day_first, year_first = DAY_FIRST.match(text), YEAR_FIRST.match(text)
    if day_first:
        day, month, year, clock = day_first.groups()
    elif year_first:
        year, month, day, clock = year_first.groups()
    else:
        return None
    date, second = day_number(int(year), int(month), int(day)), of_day(clock, 23)
    return None if date is None or second is None else (date - midnight) * 86_400 + second


def of_day(text, last_hour):
    """The seconds of a time of day, with hours up to this one."""
    hours, minutes, seconds = (int(part or 0) for part in TIME_OF_DAY.match(text).groups())
    return hours * 3600 + minutes * 60 + seconds if hours <= last_hour and minutes <= 59 and seconds <= 59 else None


def day_number(year, month, day):
    """The number of a day, if there is one. Year 0 is as long as year 400, and ends 146,097 days before that does."""
    try:
        return datetime.date(year or 400, month, day).toordinal() - (0 if year else 146_097)
    except ValueError:
        return None


def midnight_of(day):
    """The number of the day that --day names."""
    return day_number(*map(int, day.split("-")))


# Regulations.

@dataclasses.dataclass
class Regulation:
    """The rows that have one identifier, and what they say where all are whole."""
    name: str
    rows: list = dataclasses.field(default_factory=list)
    location: Optional[str] = None
    periods: list = dataclasses.field(default_factory=list)


def openings(table, midnight):
    """The regulations of a file that are opened. All rows of the others are left out."""
    regulations, columns = {}, table.columns(REGULATIONS)
    for number, fields in enumerate(table.rows):
        name = named_in(fields, columns["reg"])
        if name:
            regulations.setdefault(name, Regulation(name)).rows.append(number)
        try:
            name_in(table.checked(fields), columns["reg"], "reg", "BadReg")
            take_period(regulations[name], fields, columns, midnight)
        except LeftOut as reason:
            table.leave_out(number, reason)
    opened = []
    for regulation in regulations.values():
        reason = wrong_as_a_whole(regulation, table, len(opened))
        if reason is None:
            opened.append(regulation)
        else:
            for number in regulation.rows:
                if number not in table.left_out:
                    table.leave_out(number, reason)
    return opened


def take_period(regulation, fields, columns, midnight):
    """Takes in the period of a row."""
    location = name_in(fields, columns["loc"], "loc", "BadLocation")
    begin = time_in(fields, columns["from"], "from", midnight)
    end = time_in(fields, columns["to"], "to", midnight)
    if not NUMBER.match(fields[columns["rate"]]):
        raise LeftOut("BadRate rate")
    regulation.location = regulation.location or location
    if location != regulation.location:
        raise LeftOut("OtherLocation")
    regulation.periods.append({"from": begin, "to": end, "rate": int(fields[columns["rate"]])})


def wrong_as_a_whole(regulation, table, opened):
    """Why a regulation is left out, if it is."""
    if any(number in table.left_out for number in regulation.rows):
        return "NotWhole"
    periods = regulation.periods
    if len(periods) > MOST_PERIODS:
        return "TooManyPeriods"
    if any(one["to"] <= one["from"] for one in periods) or any(a["to"] != b["from"] for a, b in zip(periods, periods[1:])):
        return "Gap"
    if any(one["rate"] > MOST_RATE for one in periods):
        return "BadRate"
    if periods[-1]["to"] - periods[0]["from"] > MOST_SPAN:
        return "TooLong"
    return "TooManyRegulations" if opened >= MOST_REGULATIONS else None


def locations_of(table):
    """The locations of all rows that have one, also of those that are left out."""
    place = table.column("loc")
    for fields in table.rows:
        if len(fields) == len(table.header) and NAME.match(fields[place]):
            yield fields[place].decode()


# Flights.

class Flights:
    """The file of flights: which form it has, and where its columns stand."""

    def __init__(self, table):
        self.table, self.is_archive = table, bool(table.places("ECTRL ID"))
        if self.is_archive:
            self.columns, self.pairs = table.columns(ARCHIVE), [("ADES", "FILED ARRIVAL TIME")]
            self.key_title, self.off_block_title = "ECTRL ID", "FILED OFF BLOCK TIME"
        else:
            self.columns = table.columns(("key", "eobt"))
            self.columns |= table.columns(title for title in ("taxi", "sts") if table.places(title))
            self.pairs = [(f"loc{n}", f"eto{n}") for n in range(1, MOST_CROSSINGS + 1)]
            self.pairs = [pair for pair in self.pairs if any(map(table.places, pair))]
            self.columns |= table.columns(title for pair in self.pairs for title in pair)
            self.key_title, self.off_block_title = "key", "eobt"

    def key(self, fields):
        return name_in(self.table.checked(fields), self.columns[self.key_title], self.key_title, "BadKey")

    def named(self):
        """The keys of all rows, also of those that are left out, be they whole or not."""
        return [name for fields in self.table.rows if (name := named_in(fields, self.columns[self.key_title]))]

    def taxi(self, fields):
        """The taxi time that the row gives, if it gives one."""
        text = fields[self.columns["taxi"]] if "taxi" in self.columns else b""
        if text and not NUMBER.match(text):
            raise LeftOut("BadTaxi taxi")
        return int(text) if text else None

    def status(self, fields):
        text = fields[self.columns["sts"]] if "sts" in self.columns else b""
        if text and text not in STATUSES:
            raise LeftOut("BadSts sts")
        return text.decode() or None

    def entries(self, fields, midnight):
        """Where the row itself says that the flight goes, and when."""
        entries = []
        for location, time in self.pairs:
            places = self.columns[location], self.columns[time]
            if self.is_archive or any(fields[place] for place in places):
                entries.append((name_in(fields, places[0], location, "BadLocation"),
                                time_in(fields, places[1], time, midnight)))
        return entries

    def departure(self, fields):
        return name_in(fields, self.columns["ADEP"], "ADEP", "BadLocation") if self.is_archive else None


@dataclasses.dataclass
class Traffic:
    """What the rows of flights are read with."""
    midnight: int
    taxi: int
    crossings: dict  # of each key its entries
    kept: set  # the locations that stay where there are too many; with none all do


def filing_of(flights, fields, traffic, seen):
    """The command that files the flight of a row."""
    key = flights.key(fields)
    off_block = time_in(fields, flights.columns[flights.off_block_title], flights.off_block_title, traffic.midnight)
    own_taxi = flights.taxi(fields)
    status = flights.status(fields)
    entries = flights.entries(fields, traffic.midnight)
    departure = flights.departure(fields)
    entries = traffic.crossings.get(key, []) + entries
    if any(time < off_block for _, time in entries):
        raise LeftOut("EntersBefore")
    taxi = own_taxi
    if taxi is None:
        taxi = min([traffic.taxi, *(time - off_block for _, time in entries)])
        seen["taxi time cut short"] += taxi < traffic.taxi
    if departure:
        entries = entries + [(departure, off_block + taxi)]
    over = earliest(entries, seen)
    if len(over) > MOST_CROSSINGS and traffic.kept:
        over = {location: time for location, time in over.items() if location in traffic.kept}
        seen["kept of too many locations"] += len(over) <= MOST_CROSSINGS
    reason = wrong_with_plan(off_block, taxi, over)
    if reason:
        raise LeftOut(reason)
    return {"cmd": "file", "key": key, "eobt": off_block, "taxi": taxi, "sts": status,
            "via": [{"loc": location, "eto": time} for location, time in over.items()]}


def earliest(entries, seen):
    """The locations in the order in which they are first named, each with its earliest time."""
    over = {}
    for location, time in entries:
        seen["earlier time behind a later one"] += time < over.get(location, time)
        over[location] = min(time, over.get(location, time))
    return over


def wrong_with_plan(off_block, taxi, via):
    """What is wrong with a plan, if something is."""
    if taxi > MOST_TAXI:
        return "TaxiTooLong"
    if len(via) > MOST_CROSSINGS:
        return "TooManyCrossings"
    if any(time < off_block + taxi for time in via.values()):
        return "EtoBeforeTakeOff"
    return "OutOfRange" if off_block + taxi > LAST_MOMENT else None


def filings(flights, traffic, seen):
    """The filings of the rows, in the order of the file."""
    filed = {}
    for number, fields in enumerate(flights.table.rows):
        try:
            filing = filing_of(flights, fields, traffic, seen)
            if filing["key"] in filed:
                raise LeftOut("Duplicate")
            filed[filing["key"]] = filing
        except LeftOut as reason:
            flights.table.leave_out(number, reason)
    return list(filed.values())


@dataclasses.dataclass
class Crossings:
    """What the file of crossings has: of each key its entries, and how many rows are of no flight or enter again."""
    table: Table
    entries: dict
    of_no_flight: int = 0
    again: int = 0


def crossings_in(table, midnight, named):
    """The crossings of the flights that are named."""
    crossings, columns = Crossings(table, collections.defaultdict(list)), table.columns(CROSSINGS)
    for number, fields in enumerate(table.rows):
        try:
            key = name_in(table.checked(fields), columns["ECTRL ID"], "ECTRL ID", "BadKey")
            location = name_in(fields, columns["AUA ID"], "AUA ID", "BadLocation")
            time = time_in(fields, columns["Entry Time"], "Entry Time", midnight)
        except LeftOut as reason:
            table.leave_out(number, reason)
            continue
        if key in named:
            crossings.again += location in (one for one, _ in crossings.entries[key])
            crossings.entries[key].append((location, time))
        else:
            crossings.of_no_flight += 1
    table.seen["of no flight"] += crossings.of_no_flight
    table.seen["entered again"] += crossings.again
    return crossings


# The command.

def answer(asked, seen=None):
    """What is to come: the output, standard error, and the exit status. What comes in the files is counted in `seen`."""
    seen = collections.Counter() if seen is None else seen
    files = {"regs": asked.regs, "crossings": asked.crossings, "flights": asked.flights}
    tables = {kind: Table(kind, name, asked.texts[name], seen) for kind, name in files.items() if name is not None}
    try:
        commands, ends = made(asked, seen, **tables)
    except ColumnFault as fault:
        return b"", f"casa: {fault}\n".encode(), 2
    told, status = [line for table in tables.values() for line in table.told()] + ends, 0
    if asked.strict and any(table.left_out for table in tables.values()):
        commands, told, status = [], told + ["RowsLeftOut"], 1
        seen["rows left out that must not be"] += 1
    lines = "".join(json.dumps(command, sort_keys=True, separators=(",", ":")) + "\n" for command in commands)
    return lines.encode(), "".join(f"casa: {line}\n" for line in told).encode(), status


def made(asked, seen, regs=None, crossings=None, flights=None):
    """The commands that the files make, and a line of each file."""
    for table, titles in (regs, REGULATIONS), (crossings, CROSSINGS):
        if table:
            table.columns(titles)
    flights = Flights(flights) if flights else None
    commands, ends, entries, kept, midnight = [], [], {}, set(asked.locations.split(",") if asked.locations else ()), midnight_of(asked.day)
    if regs:
        opened = openings(regs, midnight)
        commands += [{"cmd": "open", "reg": one.name, "loc": one.location, "periods": one.periods} for one in opened]
        ends.append(regs.counted(f"{len(opened)} regulations, "))
        kept.update(locations_of(regs))
    if crossings:
        read = crossings_in(crossings, midnight, set(flights.named()))
        entries = read.entries
        ends.append(crossings.counted("") + f", {read.of_no_flight} of no flight, {read.again} entered again")
    if flights:
        filed = filings(flights, Traffic(midnight, asked.taxi, entries, kept), seen)
        ends.append(flights.table.counted(f"{len(filed)} filings, "))
        commands += sorted(filed, key=lambda filing: filing["eobt"]) if asked.by == "eobt" else filed
    return commands, ends
