"""The feasts that are counted from Easter, as dates: which days they mean in a territory.

Written from docs/DATES.md alone, over the Easters of calendars.py, for spans.py and span_texts.py.
"""
import re

from lib.calendars import HIGH

# Each feast, how many days it is after Easter, and texts that are read as it.
FEASTS = {
    "Septuagesima": (-63, []),
    "Ash Wednesday": (-46, ["Ash Wednesday", "Aschermittwoch"]),
    "Palm Sunday": (-7, ["Palm Sunday", "Palmsonntag"]),
    "Maundy Thursday": (-3, ["Maundy Thursday"]),
    "Good Friday": (-2, ["Good Friday", "Karfreitag"]),
    "Easter": (0, ["Easter", "Easter Day", "Easter Sunday", "Ostern", "Pascha", "Pasqua"]),
    "Easter Monday": (1, ["Easter Monday", "Ostermontag", "lundi de Paques"]),
    "Easter Tuesday": (2, ["Easter Tuesday"]),
    "Ascension": (39, ["Ascension", "Ascension Day"]),
    "Pentecost": (49, ["Pentecost", "Whitsunday", "Whit Sunday", "Whitsun", "Pfingsten"]),
    "Whit Monday": (50, ["Whit Monday", "Pfingstmontag"]),
    "Whit Tuesday": (51, ["Whit Tuesday"]),
    "Trinity": (56, ["Trinity Sunday"]),
    "Corpus Christi": (60, ["Corpus Christi"]),
}
NAMED = {text.lower(): name for name, (_, texts) in FEASTS.items() for text in texts}
FORM = rf"(?P<feast>{'|'.join(sorted(map(re.escape, NAMED), key=len, reverse=True))})"


def days_of_feast(territory, feast, date):
    """The days of a feast that the territory dated in the year of a date, in order."""
    after = FEASTS[feast][0]
    easters = [day for year in range(max(1, date.year - 1), min(9_999, date.year + 1) + 1)
               for day in territory.land.easters(year)]
    return sorted({day + after for day in easters
                   if 1 <= day + after <= HIGH and date.is_meant(territory, day + after)})
