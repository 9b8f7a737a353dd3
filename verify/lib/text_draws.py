"""Random registers, and texts of them in any form that TOML allows, for register_text.py."""
import json
import random

from lib.calendars import HIGH, LAST_YEAR, Land, cite
from lib.territory_draws import (CALENDARS, RULES, chain, days_that_begin, easter_days,
                                 random_exceptions, random_regime, random_starts)
from reference import cited
from lib.territory_texts import WORDS, date_on

NAMES = ["Rome", "Great Britain", "\u00c5ngermanland", "\u0420\u0438\u043c", "a \"quoted\" name",
         "it's", "C:\\path\\to", "# no comment", "[table]", "  ", "x = 1", "\U0001f5d3 days",
         "{ day = 1 }", "n" * 64, "\u00e9" * 32, "'''", '"""', "\u0085\u2028"]
SOURCES = ["24 Geo. II c. 23", "a bull", "\"quoted\"", "\u0434\u0435\u043a\u0440\u0435\u0442", "x",
           "s" * 1_000, "\u00e9" * 500, "\U0001f5d3" * 250, " ", "; source: y", "a://b/?c=d#e",
           "it's; a 'source'", "\\u0041", "\u0085\u2028"]
FIRST, LATER = "ABCDEFGHIJKLMNOPQRSTUVWXYZ", "ABCDEFGHIJKLMNOPQRSTUVWXYZ0123456789"


def beginnings():
    """The days near which random changes come."""
    dates = {calendar: chain(calendar) for calendar in CALENDARS}
    return days_that_begin(dates, {rule: easter_days(rule, dates[rule]) for rule in RULES})


class Draws:
    """Draws registers from a seed."""

    def __init__(self, seed, near):
        self.chance, self.near = random.Random(seed), near

    # ---- registers

    def code(self):
        length = self.chance.randint(1, 7)
        return self.chance.choice(FIRST) + "".join(self.chance.choices(LATER, k=length))

    def land(self, name=None):
        starts = dict(random_starts(self.chance, self.near))
        land = Land(name or self.chance.choice(NAMES), starts[1])
        land.starts = starts
        if self.chance.random() < 0.5:
            land.exceptions = random_exceptions(self.chance)
        if self.chance.random() < 0.6:
            self.cite_some(land)
        return land

    def source(self):
        return self.chance.choice(SOURCES)

    def cite_some(self, land):
        """Gives sources to some of the periods and of the listed Easters."""
        share = self.chance.choice([0.1, 0.5, 1])
        for sources, keys in ((land.sources, land.starts), (land.easter_sources, land.exceptions)):
            sources |= {key: self.source() for key in keys if self.chance.random() < share}

    def register(self, most=5):
        """Territories, in the order of their codes or not."""
        codes = {self.code() for _ in range(self.chance.randint(0, most))}
        codes = sorted(codes) if self.chance.random() < 0.7 else list(codes)
        return {code: self.land() for code in codes}

    def expected_after(self, lands):
        """Some of the territories as they are, others changed, and new ones."""
        expected = {}
        for code, land in lands.items():
            kind = self.chance.random()
            if kind < 0.2:
                continue
            expected[code] = (land.copy() if kind < 0.4 else self.changed(land) if kind < 0.8
                              else self.land(land.name))
        further = self.register(2)
        added = sorted(further.keys() - lands.keys())
        return {**expected, **{code: further[code] for code in added}}

    def changed(self, land):
        """A territory with a few other changes, listed Easters and sources."""
        land = land.copy()
        for _ in range(self.chance.randint(1, 4)):
            kind, days = self.chance.randrange(7), sorted(land.starts)
            source = self.chance.choice([None, None, self.source()])
            if kind == 0 and len(days) > 1:
                land.end_start(self.chance.choice(days[1:]))
            elif kind == 1 and len(days) <= 40:
                land.start(self.chance.randint(2, HIGH), random_regime(self.chance), source)
            elif kind == 2:
                land.start(self.chance.choice(days), random_regime(self.chance), source)
            elif kind == 3 and land.exceptions:
                land.end_easter(self.chance.choice(list(land.exceptions)))
            elif kind == 4:
                cite(land.sources, self.chance.choice(days), source)
            elif kind == 5 and land.exceptions:
                cite(land.easter_sources, self.chance.choice(list(land.exceptions)), source)
            else:
                land.list_easter(self.chance.randint(1, LAST_YEAR), self.chance.randint(1, HIGH),
                                 source)
        return land

    # ---- texts

    def text(self, lands):
        """A text of territories in any order and form."""
        codes = list(lands)
        self.chance.shuffle(codes)
        return "".join(self.territory(code, lands[code]) for code in codes)

    def territory(self, code, land):
        is_inline = self.chance.random() < 0.3
        parts, members = [], {"name": self.string(land.name)}
        members |= {word: self.string(value) for word, value in zip(WORDS, land.starts[1])}
        lists = {"changes": list(self.changes(land)), "easters": list(self.easters(land))}
        for name, tables in lists.items():
            if is_inline and (tables or self.chance.random() < 0.5):
                rows = "".join(f"  {{ {', '.join(table)} }},\n" for table in tables)
                members[name] = f"[\n{rows}]"
            else:
                parts += [self.table(f"[[{code}.{name}]]", table) for table in tables]
        lines = [f"{name} = {value}" for name, value in members.items()]
        lines += self.cited(land.sources, 1)
        return self.table(f"[{code}]", lines + self.note()) + "".join(parts)

    def table(self, head, members):
        """A table with its members in any order, with comments and empty lines or without."""
        self.chance.shuffle(members)
        end = self.chance.choice(["\n", "\n", "\r\n", "   # a comment\n", "\n\n"])
        return end.join([head] + members) + "\n"

    def changes(self, land):
        before = land.starts[1]
        for day in sorted(land.starts)[1:]:
            regime = land.starts[day]
            lines = [f"{word} = {self.string(new)}" for word, old, new in zip(WORDS, before, regime)
                     if old != new or self.chance.random() < 0.2]
            yield [self.day("from", day)] + lines + self.cited(land.sources, day) + self.note()
            before = regime

    def easters(self, land):
        years = list(land.exceptions)
        self.chance.shuffle(years)
        for year in years:
            lines = [f"year = {year}", self.day("date", land.exceptions[year])]
            yield lines + self.cited(land.easter_sources, year) + self.note()

    def cited(self, sources, of):
        return [f"source = {self.string(sources[of])}"] if of in sources else []

    def note(self):
        return [f"note = {self.string(self.chance.choice(NAMES))}"] * (self.chance.random() < 0.3)

    def day(self, key, day):
        """A day at a key, as a date in one of the calendars or by its number."""
        name = self.chance.choice(CALENDARS + ["day"])
        if name == "day":
            value = f"{day:_}" if self.chance.random() < 0.2 else day
        else:
            year, month, of_month = date_on(name, day)
            width = self.chance.randint(1, 2)
            value = self.string(f"{year:0{self.chance.randint(3, 5)}}-{month:0{width}}"
                                f"-{of_month:0{self.chance.randint(1, 2)}}")
        form = self.chance.choice(["{} = {{ {} = {} }}", "{} = {{{}={}}}", "{}.{} = {}"])
        return form.format(key, name, value)

    def string(self, text):
        """A text of TOML, in one of its forms."""
        kind = self.chance.randrange(4)
        if kind == 0 and "'" not in text and text.isprintable():
            return f"'{text}'"
        if kind == 1:
            return '"' + "".join(f"\\U{ord(letter):08x}" for letter in text) + '"'
        return json.dumps(text, ensure_ascii=False)


def version_for(lands):
    """The version that is written for lands: 4 if a source is given, otherwise 2."""
    return 4 if any(land.sources or land.easter_sources for land in lands.values()) else 2


def journal_lines(lands, version=None):
    """The lines of a journal that publishes lands as one edition, if there are any."""
    yield {"journal": version or version_for(lands)}
    for code, land in lands.items():
        for day in sorted(land.starts):
            op = {"op": "add_land", "name": land.name} if day == 1 else {"op": "add_change",
                                                                         "day": day}
            yield {**op, "code": code, **dict(zip(WORDS, land.starts[day])),
                   **cited(land.sources, day)}
        for year, day in sorted(land.exceptions.items()):
            yield {"op": "add_exception", "code": code, "year": year, "day": day,
                   **cited(land.easter_sources, year)}
    if lands:
        yield {"op": "publish"}
