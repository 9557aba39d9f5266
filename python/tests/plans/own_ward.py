"""A ward of 14 nurses over two periods of two weeks, around New Year, and its rules as a person reads
them in the guides: what each week costs, what each nurse has, and which days have a sign, from the
rows of the sheets and from what was typed. Nothing of the product is imported, so that a mistake of
it is none of this file."""

import csv
import datetime
import io
import math
import re
from fractions import Fraction
from html.parser import HTMLParser

DAY = datetime.timedelta(days=1)
FIRST = datetime.date(2026, 12, 14)
SECOND = datetime.date(2026, 12, 28)
END = datetime.date(2027, 1, 11)
WEEKDAYS = ("Mon", "Tue", "Wed", "Thu", "Fri", "Sat", "Sun")
# Minimum and maximum of days in a row, the shift types that may not follow, and the times.
SHIFTS = {
    "Early": (2, 5, (), ("06:00", "14:12")),
    "Late": (2, 5, ("Early",), ("13:30", "21:42")),
    "Night": (2, 5, ("Early", "Late"), ("21:15", "06:30")),
}
# Shifts, days of work and days off: minimum and maximum; the most weekends, complete weekends.
CONTRACTS = {
    "Head": ((7, 10), (2, 5), (2, 4), 0, False),
    "Full": ((8, 10), (2, 6), (2, 4), 1, True),
    "Part75": ((5, 8), (2, 5), (2, 6), 1, True),
    "Part50": ((3, 5), (2, 5), (2, 8), 1, True),
    "Nights": ((4, 7), (3, 5), (3, 9), 1, True),
}
# Contract, skills, never, always off, last shift, days on it, days of work, days off.
NURSES = {
    "Maria Schäfer": ("Head", "Charge, Nurse", "Late, Night", "Sat, Sun", "", 0, 0, 2),
    "Aylin Öztürk": ("Full", "Charge, Nurse", "", "", "Early", 2, 2, 0),
    "Björn Lindqvist": ("Full", "Charge, Nurse", "", "", "Late", 2, 3, 0),
    "Céline Dubois": ("Full", "Nurse", "", "", "", 0, 0, 1),
    "Đorđe Petrović": ("Full", "Nurse", "", "", "Early", 1, 1, 0),
    "Elif Şahin": ("Full", "Nurse", "", "", "", 0, 0, 2),
    "Frank O'Hara": ("Full", "Charge, Nurse", "", "", "", 0, 0, 2),
    "Greta Voß": ("Part75", "Nurse", "Night", "", "Late", 1, 1, 0),
    "Hồng Nguyễn": ("Part75", "Nurse", "", "", "", 0, 0, 3),
    "Ivana Kovač": ("Part50", "Nurse", "Night", "", "", 0, 0, 2),
    "Jana Novotná": ("Part50", "Charge, Nurse", "Night", "Wed", "", 0, 0, 4),
    "Karl Nachtigall": ("Nights", "Nurse", "Early, Late", "", "Night", 2, 2, 0),
    "Lucía Peña": ("Nights", "Nurse", "Early, Late", "", "", 0, 0, 3),
    "Mo Ahmed": ("Full", "Nurse", "", "", "", 0, 0, 1),
    "Nadia Haddad": ("Full", "Nurse", "", "", "", 0, 0, 0),
}
COMES = {"Nadia Haddad": datetime.date(2027, 1, 4)}
LEAVES = {"Ivana Kovač": SECOND - DAY}
# Another contract in the second period.
CHANGES = {"Jana Novotná": "Part75"}
# Minimum and best numbers on weekdays and on weekends.
NEEDS = {
    ("Early", "Charge"): ((1, 1), (1, 1)),
    ("Early", "Nurse"): ((2, 3), (2, 2)),
    ("Late", "Nurse"): ((2, 3), (2, 2)),
    ("Night", "Nurse"): ((1, 1), (1, 1)),
}
HOLIDAYS = {
    (datetime.date(2026, 12, 25), "Early", "Nurse"): (1, 2),
    (datetime.date(2026, 12, 25), "Late", "Nurse"): (1, 2),
    (datetime.date(2027, 1, 1), "Early", "Nurse"): (1, 2),
}
AWAY = ("ill", "leave", "training", "unpaid", "away")


def _dates(first, last):
    return [first + number * DAY for number in range((last - first).days + 1)]


def _cells():
    """The cells of the sheet plan."""
    rows = (
        ("Aylin Öztürk", "leave", (2026, 12, 21), (2026, 12, 27)),
        ("Céline Dubois", "leave", (2026, 12, 28), (2027, 1, 3)),
        ("Mo Ahmed", "training", (2026, 12, 15), (2026, 12, 16)),
        ("Elif Şahin", "wish", (2026, 12, 19), (2026, 12, 20)),
        ("Frank O'Hara", "wish", (2026, 12, 24), (2026, 12, 25)),
        ("Hồng Nguyễn", "no Night", (2026, 12, 15), (2026, 12, 16)),
        ("Greta Voß", "Early", (2026, 12, 16), (2026, 12, 16)),
        ("Ivana Kovač", "unpaid", (2026, 12, 14), (2026, 12, 15)),
        ("Björn Lindqvist", "wish", (2026, 12, 31), (2026, 12, 31)),
        ("Đorđe Petrović", "off", (2027, 1, 1), (2027, 1, 1)),
    )
    return {
        (nurse, day): text
        for nurse, text, first, last in rows
        for day in _dates(datetime.date(*first), datetime.date(*last))
    }


CELLS = _cells()


def sheets(names=None, first=FIRST):
    """The rows of the sheets, with columns from this day on; `names` has new names of nurses."""
    names = names or {}
    heads = "nurse,contract,skills,never,always off,last shift,days on it,days of work,days off"
    nurses = [[*heads.split(","), "was", "from", "until"]]
    for nurse, (contract, *rest) in NURSES.items():
        was = nurse if nurse in names else ""
        row = [names.get(nurse, nurse), contract, *rest, was]
        begin, end = COMES.get(nurse, ""), LEAVES.get(nurse, "")
        nurses.append([*row, begin, SECOND - DAY if nurse in CHANGES else end])
        if nurse in CHANGES:
            nurses.append([names.get(nurse, nurse), CHANGES[nurse], *row[2:], SECOND, ""])
    days = _dates(first, END - DAY)
    needs = [["week", "shift", "skill", *WEEKDAYS]]
    for (shift, skill), (week, weekend) in NEEDS.items():
        needs.append(["", shift, skill, *[_number(week)] * 5, *[_number(weekend)] * 2])
    for (date, shift, skill), number in HOLIDAYS.items():
        numbers = [_number(number) if day == date.weekday() else "" for day in range(7)]
        needs.append([date, shift, skill, *numbers])
    contracts = "contract,shifts min,shifts max,work min,work max,off min,off max"
    rows = {
        "shifts": [
            ["shift", "min in a row", "max in a row", "not followed by", "times"],
            *(
                [name, low, high, ", ".join(after), "-".join(times)]
                for name, (low, high, after, times) in SHIFTS.items()
            ),
        ],
        "contracts": [
            [*contracts.split(","), "weekends", "complete weekends"],
            *(
                [name, *shifts, *work, *off, weekends, "yes" if complete else ""]
                for name, (shifts, work, off, weekends, complete) in CONTRACTS.items()
            ),
            ["period", 2],
        ],
        "nurses": nurses,
        "needs": needs,
        "plan": [
            ["nurse", *days],
            *(
                [names.get(nurse, nurse), *(CELLS.get((nurse, day), "") for day in days)]
                for nurse in NURSES
            ),
        ],
    }
    return {name: [[str(cell) for cell in row] for row in table] for name, table in rows.items()}


def _number(pair):
    return str(pair[0]) if pair[0] == pair[1] else f"{pair[0]}+{pair[1] - pair[0]}"


class Page(HTMLParser):
    """A page of a roster: its lines, its red lines, the shift or word and the signs of each nurse's
    day, and the sums beside it."""

    def __init__(self, text):
        super().__init__()
        self.lines, self.red, self.rows = [], [], {}
        self._open, self._row, self._table, self._cell = [], None, False, None
        self.feed(text)

    def handle_starttag(self, tag, attrs):
        words = dict(attrs)
        kind = words.get("class") or ""
        if tag == "table":
            self._table = "roster" in kind.split()
        if tag == "tr":
            self._row = []
        if tag in ("td", "th") and self._table:
            self._cell = {"kind": kind, "tag": tag, "b": "", "small": "", "hidden": [], "away": ""}
            self._cell.update(marks=[], text="")
        if tag == "p":
            (self.red if kind == "open" else self.lines).append("")
        if tag not in ("meta", "input", "br"):
            self._open.append((tag, kind))

    def handle_endtag(self, tag):
        while self._open and self._open.pop()[0] != tag:
            pass
        if tag in ("td", "th") and self._cell:
            self._row.append(self._cell)
            self._cell = None
        if tag == "tr" and self._table and self._row and self._row[0]["tag"] == "th":
            if any(cell["tag"] == "td" for cell in self._row):
                self.rows[self._row[0]["text"]] = self._row[1:]
        if tag == "table":
            self._table = False

    def handle_data(self, data):
        kinds = [kind for _, kind in self._open]
        if any(tag == "p" for tag, _ in self._open):
            target = self.red if "open" in kinds else self.lines
            target[-1] += data
        if self._cell is None:
            return
        self._cell["text"] += data
        inner, kind = self._open[-1]
        if "hidden" in kinds:
            self._cell["hidden"].append(data)
        elif kind == "mark":
            self._cell["marks"].append(data)
        elif kind == "away":
            self._cell["away"] += data
        elif inner in ("b", "small"):
            self._cell[inner] += data

    def shift(self, cell):
        """The shift type and the skill of a cell; nothing if she is off."""
        for text in [*cell["hidden"], f"{cell['b']} {cell['small']}"]:
            words = text.strip().split(" ")
            if words[0] in SHIFTS and len(words) == 2:
                return tuple(words)
        return None

    @property
    def points(self):
        """The points of the page."""
        found = re.search(r", ([0-9]+) points?[;, ]", " ".join(self.lines))
        return int(found[1]) if found else None


class Ward:
    """What a person knows of the ward: what was typed, and the line of days that pages have shown
    and that was worked."""

    def __init__(self):
        self.names = {}
        # The shift of each nurse's day, and the words that verbs have written.
        self.cells = {}
        self.words = {}
        self.lost = {}
        self.promised = {}
        # The shifts of each day that was hung up, by its period.
        self.hung = {}
        # The last planned shifts of each day before its week was over.
        self.planned = {}
        self.open_from = FIRST
        # The days of weeks that are not over that are recorded as they were worked.
        self.recorded = set()

    # ---- what is known of a nurse's day

    def nurses(self, monday):
        """The nurses of a period."""
        last = monday + 13 * DAY
        return [
            nurse
            for nurse in NURSES
            if COMES.get(nurse, monday) <= last and LEAVES.get(nurse, last) >= monday
        ]

    def word(self, nurse, day):
        """Why a nurse is away on a day, if she is."""
        if COMES.get(nurse, day) > day or LEAVES.get(nurse, day) < day:
            return "away"
        text = self.words.get((nurse, day), CELLS.get((nurse, day), ""))
        return text if text in AWAY else ""

    def wishes(self, nurse, day):
        """The shift types that she would rather not have."""
        text = CELLS.get((nurse, day), "")
        if (nurse, day) in self.words:
            return ()
        return tuple(SHIFTS) if text == "wish" else (text[3:],) if text.startswith("no ") else ()

    def contract(self, nurse, monday):
        """Her contract in a period, with the part of it that counts."""
        name = CHANGES[nurse] if nurse in CHANGES and monday >= SECOND else NURSES[nurse][0]
        (low, high), work, (least_off, most_off), weekends, complete = CONTRACTS[name]
        days = _dates(monday, monday + 13 * DAY)
        gone = sum(self.word(nurse, day) in ("away", "unpaid") for day in days)
        low, high = low * (14 - gone) // 14, math.ceil(Fraction(high * (14 - gone), 14))
        # Days off before the period count with the days away at its begin.
        start = 0 if NURSES[nurse][4] else NURSES[nurse][7]
        longest = 0
        run = start
        if nurse not in COMES and monday > FIRST:
            run = self._before(
                nurse, monday - DAY, lambda one: (nurse, one) not in self.cells, start
            )
        for day in days:
            is_away = self.word(nurse, day) or self.always_off(nurse, day) or self.off(nurse, day)
            run = run + 1 if is_away else 0
            longest = max(longest, run)
        ends = [self.word(nurse, day) == "away" for day in (days[0], days[-1])]
        if longest > most_off or any(ends):
            most_off = 9999
        return (low, high), work, (least_off, most_off), weekends, complete

    def full(self, nurse, monday):
        """As how many shifts a day of leave counts."""
        name = CHANGES[nurse] if nurse in CHANGES and monday >= SECOND else NURSES[nurse][0]
        return min(Fraction(1), Fraction(CONTRACTS[name][0][1], 10))

    def off(self, nurse, day):
        """Whether the spreadsheet promises her this day off."""
        return CELLS.get((nurse, day)) == "off"

    def always_off(self, nurse, day):
        """Whether she never works on this day of the week."""
        return WEEKDAYS[day.weekday()] in NURSES[nurse][3]

    def credit(self, nurse, monday):
        """As how many shifts her days away of a period count."""
        total = Fraction(0)
        for day in _dates(monday, monday + 13 * DAY):
            word = self.word(nurse, day)
            if word == "training":
                total += 1
            elif word == "ill" and (nurse, day) in self.lost:
                total += self.lost[nurse, day]
            elif word in ("leave", "ill"):
                saturday = day + (5 - day.weekday()) * DAY
                beside = any(self.word(nurse, one) for one in (saturday - DAY, saturday + 2 * DAY))
                total += 0 if day.weekday() > 4 and beside else self.full(nurse, monday)
        return math.ceil(total)

    def needed(self, day, shift, skill):
        """The minimum and the best number."""
        usual = NEEDS[shift, skill][day.weekday() > 4]
        return HOLIDAYS.get((day, shift, skill), usual)

    # ---- what a week costs

    def _before(self, nurse, day, has, start):
        """On how many days in a row until a day a nurse has had something."""
        number = 0
        while day >= FIRST and has(day):
            number += 1
            day -= DAY
        return number + (start if day < FIRST else 0)

    def _runs(self, nurse, week, has, start, limits):
        """The days above and below the limits of days in a row, in a week. A nurse who comes has
        none before her period."""
        low, high = limits
        begins = SECOND if nurse in COMES else FIRST
        count = 0
        length = start if week == begins else self._before(nurse, week - DAY, has, start)
        if nurse in COMES and week > SECOND:
            length = 0
            for day in _dates(SECOND, week - DAY):
                length = length + 1 if has(day) else 0
        for day in _dates(week, week + 6 * DAY):
            if has(day):
                length += 1
                count += length > high
            else:
                count += max(0, low - length) if length else 0
                length = 0
        return count

    def week_costs(self, week):
        """The points of a week: those of each nurse, and, with an empty name, of places."""
        monday = FIRST if week < SECOND else SECOND
        costs = {nurse: self._costs_of(nurse, week, monday) for nurse in self.nurses(monday)}
        costs[""] = sum(
            30 * max(0, self.needed(day, *place)[1] - self.number(day, *place))
            for day in _dates(week, week + 6 * DAY)
            for place in NEEDS
        )
        return costs

    def _costs_of(self, nurse, week, monday):
        """The points of a nurse's week."""
        total = 0
        (low, high), work, off, weekends, complete = self.contract(nurse, monday)
        _, _, _, _, last, on_it, days_of_work, days_off = NURSES[nurse]

        def works(day, nurse=nurse):
            return (nurse, day) in self.cells

        total += 30 * self._runs(nurse, week, works, days_of_work if last else 0, work)
        total += 30 * self._runs(
            nurse, week, lambda day: not works(day), 0 if last else days_off, off
        )
        for shift, (least, most, _, _) in SHIFTS.items():
            start = on_it if last == shift else 0
            total += 15 * self._runs(
                nurse, week, lambda day: self.shift(nurse, day) == shift, start, (least, most)
            )
        days = _dates(week, week + 6 * DAY)
        total += 10 * sum(self.shift(nurse, day) in self.wishes(nurse, day) for day in days)
        if complete and works(days[5]) != works(days[6]):
            total += 30
        if week == monday + 7 * DAY:
            of_period = _dates(monday, monday + 13 * DAY)
            shifts = sum(map(works, of_period)) + self.credit(nurse, monday)
            total += 20 * (max(0, low - shifts) + max(0, shifts - high))
            ends = [
                any(works(day) or self.word(nurse, day) == "training" for day in pair)
                for pair in (of_period[5:7], of_period[12:])
            ]
            total += 30 * max(0, sum(ends) - weekends)
        return total

    def shift(self, nurse, day):
        """The shift type of a nurse's day."""
        return self.cells.get((nurse, day), ("",))[0]

    def number(self, day, shift, skill):
        """How many nurses a place has."""
        return sum(cell == (shift, skill) for (_, date), cell in self.cells.items() if date == day)

    # ---- pages

    def nurse_of(self, name):
        """The nurse with a name of now."""
        return next((nurse for nurse, now in self.names.items() if now == name), name)

    def take(self, page, first):
        """Takes the shifts of a page, whose first day is this one."""
        for name, cells in page.rows.items():
            nurse = self.nurse_of(name)
            days = [cell for cell in cells if "sum" not in cell["kind"].split()]
            for number, cell in enumerate(days):
                place = nurse, first + number * DAY
                shift = page.shift(cell)
                self.cells.pop(place, None)
                if shift:
                    self.cells[place] = shift

    def missing(self, first, last):
        """The lines of open shifts on these days."""
        return [
            f"{shift} {skill}, {WEEKDAYS[day.weekday()]} {day.day} {day:%b}: {less} nurse"
            f"{'s' * (less > 1)} missing"
            for day in _dates(first, last)
            for shift, skill in sorted(NEEDS)
            for less in [self.needed(day, shift, skill)[0] - self.number(day, shift, skill)]
            if less > 0
        ]

    def broken(self, first, last):
        """The hard rules and absences that these days break."""
        found = []
        for (nurse, day), (shift, skill) in self.cells.items():
            if not first <= day <= last:
                continue
            before = self.shift(nurse, day - DAY) if day > FIRST else NURSES[nurse][4]
            never = NURSES[nurse][2].split(", ")
            if before and shift in SHIFTS[before][2]:
                found.append((nurse, day, f"{shift} after {before}"))
            if skill not in NURSES[nurse][1].split(", ") or shift in never:
                found.append((nurse, day, f"never {shift} {skill}"))
            if self.word(nurse, day) or self.always_off(nurse, day) or self.off(nurse, day):
                found.append((nurse, day, "away"))
        return found

    def sums(self, nurse, monday):
        """The shifts, hours, nights, weekends and granted wishes of a nurse in a period, as they
        stand on a wall."""
        days = _dates(monday, monday + 13 * DAY)
        shifts = [self.shift(nurse, day) for day in days if self.shift(nurse, day)]
        credit = self.credit(nurse, monday)
        mean = sum(map(_hours, SHIFTS)) / len(SHIFTS)
        hours = sum(map(_hours, shifts)) + credit * mean
        weekends = sum(
            any(self.shift(nurse, day) for day in pair) for pair in (days[5:7], days[12:])
        )
        asked = [(day, self.wishes(nurse, day)) for day in days if self.wishes(nurse, day)]
        kept = sum(self.shift(nurse, day) not in shifts_ for day, shifts_ in asked)
        return [
            str(len(shifts) + credit),
            f"{float(hours):.0f}",
            str(shifts.count("Night")),
            str(weekends),
            f"{kept}/{len(asked)}" if asked else "-",
        ]

    def worked_rows(self, until):
        """The rows of the table of what was worked before a day."""
        rows = set()
        for nurse in NURSES:
            for day in _dates(FIRST, until - DAY):
                monday = FIRST if day < SECOND else SECOND
                if nurse not in self.nurses(monday):
                    continue
                shift, skill = self.cells.get((nurse, day), (self.word(nurse, day), ""))
                planned = self.planned.get((nurse, day), ("",))[0]
                if shift or planned:
                    name = self.names.get(nurse, nurse)
                    rows.add((name, str(day), shift, skill, planned))
        return rows

    def ends(self, week):
        """A week is over as it was planned, but for days that are recorded."""
        self.records(week + 6 * DAY)

    def records(self, last):
        """The days to this one are recorded: they were planned as they are until then."""
        for day in set(_dates(self.open_from, last)) - self.recorded:
            self.recorded.add(day)
            for nurse in NURSES:
                if (nurse, day) in self.cells:
                    self.planned[nurse, day] = self.cells[nurse, day]

    def is_ill(self, nurse, days):
        """A nurse is ill on these days: each shift that she loses counts."""
        for day in days:
            self.lost[nurse, day] = int((nurse, day) in self.cells)
            self.words[nurse, day] = "ill"
            self.cells.pop((nurse, day), None)


def _hours(shift):
    begin, end = (
        Fraction(int(time[:2])) + Fraction(int(time[3:]), 60) for time in SHIFTS[shift][3]
    )
    return (end - begin) % 24


def rows_of(text):
    """The rows of a table of commas, without its heads."""
    return [tuple(row) for row in csv.reader(io.StringIO(text))][1:]
