"""Random journals, and dates to ask of them, for pages.py, letters.py and dual_dates.py."""


from lib.calendars import HIGH, MONTHS, WEEKDAYS, dates, style_year
from lib.common import compact
from reference import NEWEST, Service

STYLES = ["january", "annunciation", "nativity", "september", "pisan", "easter"]
CALENDARS = ["julian", "gregorian", "swedish"]
NAMES = {"XX": "Some \u00e9 place", "YY": "Another"}
SOURCES = ["24 Geo. II c. 23", "\u00e9dit de Paris", "(a bull)", 'a "decree"', "s" * 1_000]


def regime(chance):
    style = chance.choice(STYLES)
    if style == "easter":
        return {"calendar": "julian", "style": style, "rule": "julian"}
    return {"calendar": chance.choice(CALENDARS), "style": style,
            "rule": chance.choice(["julian", "gregorian"])}


def source(chance, share):
    """The source of an edit as its member, or now and then none."""
    return {"source": chance.choice(SOURCES)} if chance.random() < share else {}


def middle_day(chance):
    """A day about which a territory changes: about the reforms, anywhere, or at an end."""
    return chance.choice([chance.randint(500_000, 760_000), chance.randint(1_600, HIGH - 1_600),
                          chance.choice([1_600, HIGH - 1_600, 620_617, 625_000])])


def journal_lines(chance, middle):
    """A territory with some changes about a day in two editions, and edits that wait."""
    days = sorted(chance.sample(range(middle - 1_500, middle + 1_500), chance.randint(0, 6)))
    years = chance.sample(range(1, 10_000), chance.randint(0, 3))
    share = chance.choice([0, 0, 0.5, 1])
    yield {"op": "add_land", "code": "XX", "name": NAMES["XX"], **regime(chance),
           **source(chance, share)}
    yield {"op": "publish"}
    yield from ({"op": "add_change", "code": "XX", "day": day, **regime(chance),
                 **source(chance, share)} for day in days)
    yield from ({"op": "add_exception", "code": "XX", "year": year, "day": chance.randint(1, HIGH),
                 **source(chance, share)} for year in years)
    yield {"op": "add_land", "code": "YY", "name": NAMES["YY"], **regime(chance)}
    yield {"op": "publish"}
    for year in range(1, 1 + chance.choice([0, 0, 1, 2, 3])):
        yield {"op": "add_exception", "code": "YY", "year": year, "day": chance.randint(1, HIGH)}


def write_journal(path, lines):
    """Writes a journal, and returns the service that has run its lines."""
    service, lines = Service(), list(lines)
    version = NEWEST if any("source" in line for line in lines) else 2
    with open(path, "w", encoding="utf-8") as file:
        file.write(compact({"journal": version}) + "\n")
        for line in map(compact, lines):
            file.write(line + "\n")
            if '"fault"' in service.reply(line.encode()):
                raise ValueError(line)
    return service


def day_near(chance, territory, middle):
    """A day about the changes of a territory, or anywhere."""
    near = [start + chance.randint(-40, 40) for start in territory.firsts[1:]]
    near += [middle + chance.randint(-1_600, 1_600), chance.randint(1, HIGH)]
    return min(HIGH, max(1, chance.choice(near)))


def label_near(chance, territory, middle):
    """A year, month and day, which a day may have, or which a change may have left out."""
    day = day_near(chance, territory, middle)
    calendar, style, _ = chance.choice(territory.periods)[2]
    year, month, of_month = chance.choice([
        territory.label(day), (style_year(calendar, style, day), *dates(calendar)[day][1:])])
    kind = chance.randrange(8)
    if kind == 0:
        year += chance.randint(-2, 2)
    elif kind == 1:
        month, of_month = chance.choice([(2, 29), (2, 30), (4, 31), (3, 25), (3, 24), (12, 25)])
    elif kind == 2:
        month, of_month = chance.randint(1, 3), chance.randint(1, 31)
    elif kind == 3 and chance.random() < 0.5:
        year = chance.choice([0, 1, 9_999, 10_000])
    return min(10_000, max(0, year)), month, of_month


def any_case(chance, name):
    return chance.choice([name, name, name.lower(), name.upper()])


def date_text(chance, label):
    """The date in one of its forms, as a double one or not, and with a weekday or not."""
    year, month, day = label
    later = ""
    if chance.random() < (0.6 if month < 4 else 0.1):
        later = "/" + later_digits(year + 1, chance.randint(1, 5))
    name = any_case(chance, MONTHS[month - 1])
    text = chance.choice([f"{day} {name} {year:03}{later}",
                          f"{year:04}{later}-{month:02}-{day:02}"])
    if chance.random() < 0.3:
        text = f"{any_case(chance, chance.choice(WEEKDAYS))} {text}"
    return text


def later_digits(year, count):
    """The last digits of a year, with zeros before it if it has fewer."""
    return f"{year:0{count}}"[-count:]


MALFORMED = ["11 February 1731/5", "11 February 1731/", "1731/33-02-11", "11 Febuary 1731",
             "11 1731", "11  Febuary 1731", "Fryday 11 February 1731", "1731-13-01", "1731-02-32",
             "1731-00-01", "10001-01-01", "11 February 31", "11 May 9/10", "1731-02-",
             "0 February 1731", "11 February 1731/z", "z"]


