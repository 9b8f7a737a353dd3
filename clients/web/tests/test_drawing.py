"""The drawing of a timeline."""
from __future__ import annotations

import random

from oldstyle import Change, Day, Regime

from oldstyle_web import drawing


def change_on(number: int) -> Change:
    found = Day(number, "1 January 1700", "1700-01-01", 0, "1700-01-01", "1700-01-01", "Monday")
    regime = Regime("julian", "julian", "january")
    return Change(found, found, 0, regime, regime, 0)


def test_no_text_of_a_change_is_crossed_by_the_line_of_another() -> None:
    chance = random.Random(1)
    for _ in range(500):
        days = sorted(chance.sample(range(980), chance.randint(2, 9)))
        marks = drawing.change_marks(list(map(change_on, days)), lambda day: float(day))
        assert not [(one.x, other.x) for one in marks if one.level for other in marks
                    if one.x < other.x < one.x + drawing.ROOM and other.top < one.level - 13], days


def test_days_outside_stand_at_the_edges() -> None:
    place = drawing.across(100, 199)
    assert place(100) == place(1) == drawing.MARGIN
    assert place(200) == place(5_000) == drawing.WIDTH - drawing.MARGIN
