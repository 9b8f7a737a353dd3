#!/usr/bin/env python3
"""Compares what random territories answer with a search through every day.

The search shares no rule of conversion with the service. The calendars are laid out month by month
over all 3,652,059 days, each day is given its label under each calendar and style, and what a label
means is looked up among all of them: that gives the readings and the skipped dates, the latter by
the definition in docs/CALENDARS.md. Easter is found in the tables of the computus, day by day.
Changes and labels come anywhere, and near Easter and 25 March, when years begin.

Each 30 territories are a run of their own. It takes two minutes, and the time of the program for
10,000 readings and all years' Easters.
"""
import json
import random
import sys
from array import array

from lib.calendars import HIGH, LAST_LABEL_YEAR, LAST_YEAR
from lib.common import CommandLine, end, replies
from lib.territory_draws import (CALENDARS, EASTER_STYLE, RULES, STYLES, chain, days_that_begin,
                                 easter_days, key, random_exceptions, random_starts)

LANDS, READINGS = 30, 100


def styled(style, date):
    """The label of a date: its year is the style's."""
    place = date % 10_000
    if style == "annunciation":
        return date - 10_000 if place < 325 else date
    start = {"january": 1_300, "nativity": 1_225, "september": 901, "pisan": 325}[style]
    return date + 10_000 if place >= start else date


def styled_by_easter(dates, easters):
    """The labels of all days, the years beginning at these days of Easter."""
    labels = array("i", [0])
    for day, date in enumerate(dates[1:], 1):
        labels.append(date - 10_000 if day < easters[date // 10_000] else date)
    return labels


def random_spring(numbers, year):
    """A label of that year from 10 March to 5 May, when Easter and 25 March are."""
    place = numbers.randint(10, 66)
    return key(year, 3, place) if place <= 31 else key(year, 4, min(place - 31, 30))


def random_labels(numbers, starts, labels):
    """Labels to read: near the changes under both of their regimes, dates of spring, both near the
    changes and in any years, leap days, and any others."""
    chosen = {key(1712, 2, 30), key(1700, 2, 29), key(0, 1, 3), key(LAST_LABEL_YEAR, 12, 31)}
    while len(chosen) < READINGS:
        place = numbers.randrange(len(starts))
        regime = starts[numbers.choice([place, place - 1]) if place else 0][1]
        day = min(HIGH, max(1, starts[place][0] + numbers.randint(-15, 15)))
        chance, near = numbers.random(), labels[regime[:2]][day]
        if chance < 0.45:
            chosen.add(near)
        elif chance < 0.65:
            year = min(LAST_LABEL_YEAR, max(0, near // 10_000 + numbers.randint(-1, 1)))
            chosen.add(random_spring(numbers, year))
        elif chance < 0.8:
            chosen.add(random_spring(numbers, numbers.randint(0, LAST_LABEL_YEAR)))
        elif chance < 0.9:
            chosen.add(key(numbers.randint(0, LAST_LABEL_YEAR), 2, numbers.choice([29, 29, 30])))
        else:
            month, day = numbers.randint(1, 12), numbers.randint(1, 31)
            chosen.add(key(numbers.randint(0, LAST_LABEL_YEAR), month, day))
    return chosen


def days_by_label(line, chosen):
    """All days of the line whose label is sought: a search through every day."""
    days = {label: [] for label in chosen}
    for day, label in enumerate(line):
        if label in chosen:
            days[label].append(day)
    return days


def ends(starts):
    return [day for day, _ in starts[1:]] + [HIGH + 1]


def skipped(starts, label, under, result):
    """The changes at which the label is skipped, `found` being the days on which it is read, and
    `under` having the days of each label under each calendar and style."""
    days = []
    last = ends(starts)
    for place in range(1, len(starts)):
        (before, old_regime), (change, new_regime) = starts[place - 1 : place + 1]
        old, new = under[old_regime[:2]][label], under[new_regime[:2]][label]
        old_late = not old or any(day >= change for day in old)
        new_early = not new or any(day < change for day in new)
        is_read = any(before <= day < last[place] for day in result)
        if old_late and new_early and (old or new) and not is_read:
            days.append(change)
    return days


def expected_easters(starts, exceptions, easters):
    """The days of Easter of each year, by the rule in force on the very day, or as it is listed."""
    days = {year: [] for year in range(1, LAST_YEAR + 1)}
    for rule in RULES:
        in_force = bytearray(HIGH + 1)
        for (first, regime), after in zip(starts, ends(starts)):
            if regime[2] == rule:
                in_force[first:after] = b"\1" * (after - first)
        for year, day in easters[rule].items():
            if in_force[day]:
                days[year].append(day)
    listed = {year: [day] for year, day in exceptions.items()}
    return {year: listed.get(year, sorted(result)) for year, result in days.items()}


def edits(code, starts, exceptions):
    for day, (calendar, style, rule) in starts:
        words = {"code": code, "calendar": calendar, "style": style, "rule": rule}
        place = {"op": "add_land", "name": code} if day == 1 else {"op": "add_change", "day": day}
        yield {**place, **words}
    for year, day in exceptions.items():
        yield {"op": "add_exception", "code": code, "year": year, "day": day}


def label_text(label):
    return f"{label // 10_000:04}-{label // 100 % 100:02}-{label % 100:02}"


def random_territories(numbers, count, labels, beginnings):
    """Codes, with the periods of a territory, its exceptions and the labels to read there."""
    territories = {}
    for number in range(count):
        starts = random_starts(numbers, beginnings)
        chosen = random_labels(numbers, starts, labels)
        territories[f"T{number}"] = starts, random_exceptions(numbers), chosen
    return territories


def territory_line(starts, labels):
    """The label of each day of the line under the regime in force on it."""
    line = array("i", [0])
    for (first, regime), after in zip(starts, ends(starts)):
        line += labels[regime[:2]][first:after]
    return line


def readings(code, starts, chosen, line, under):
    """Requests with the days found, their labels and the changes at which the label was skipped."""
    for label, result in days_by_label(line, chosen).items():
        year, month, day = label // 10_000, label // 100 % 100, label % 100
        date = {"year": year, "month": month, "day": day}
        request = {"op": "read", "reader": 1, "code": code, **date}
        texts = [label_text(label)] * len(result)
        yield request, (result, texts, skipped(starts, label, under, result))


def easter_queries(code, starts, exceptions, line, easters):
    """Requests with the days found, their labels and whether an exception is listed."""
    for year, days in expected_easters(starts, exceptions, easters).items():
        request = {"op": "easter", "reader": 1, "code": code, "year": year}
        yield request, (days, [label_text(line[day]) for day in days], year in exceptions)


def answered(reply):
    """What a reply says, in the form that is expected."""
    answer = reply["answer"]
    days = [result["day"] for result in answer["days"]]
    texts = [result["label"] for result in answer["days"]]
    return days, texts, answer.get("skipped", answer.get("listed"))


def compared(cases, answers):
    """Prints the first cases that differ, and returns the counts of all cases."""
    apart = 0
    for (request, expected), reply in zip(cases, answers):
        if "fault" in reply or answered(reply) != expected:
            apart += 1
            if apart <= 10:
                print(f"{request}\n  is answered {reply}\n  the search: {expected}")
    several = sum(len(expected[0]) > 1 for _, expected in cases)
    lost = sum(isinstance(expected[2], list) and expected[2] != [] for _, expected in cases)
    return len(cases), several, lost, apart


def run(program, numbers, count, labels, easters, beginnings):
    """One run of `count` territories, and what came of it."""
    territories = random_territories(numbers, count, labels, beginnings)
    chosen_labels = set().union(*(chosen for _, _, chosen in territories.values()))
    under = {names: days_by_label(line, chosen_labels) for names, line in labels.items()}

    staged, cases = [], []
    for code, (starts, exceptions, chosen) in territories.items():
        staged += edits(code, starts, exceptions)
        line = territory_line(starts, labels)
        cases += readings(code, starts, chosen, line, under)
        cases += easter_queries(code, starts, exceptions, line, easters)
    staged.append({"op": "publish"})

    requests = map(json.dumps, staged + [request for request, _ in cases])
    lines = [json.loads(line) for line in replies(program, requests)]
    if any("fault" in line for line in lines[: len(staged)]):
        sys.exit("an edit was refused")
    return compared(cases, lines[len(staged) :])


def main():
    line = CommandLine(__doc__)
    line.add_program()
    line.add_count(100, "territories")
    line.add_seed()
    options = line.read()
    numbers = random.Random(options.seed)
    dates = {calendar: chain(calendar) for calendar in CALENDARS}
    easters = {rule: easter_days(rule, dates[rule]) for rule in RULES}
    labels = {
        (calendar, style): array("i", [styled(style, date) for date in dates[calendar]])
        for calendar in CALENDARS
        for style in STYLES
    }
    labels[EASTER_STYLE] = styled_by_easter(dates["julian"], easters["julian"])
    beginnings = days_that_begin(dates, easters)

    sums = [0, 0, 0, 0]
    for done in range(0, options.count, LANDS):
        count = min(LANDS, options.count - done)
        results = run(options.program, numbers, count, labels, easters, beginnings)
        sums = [one + more for one, more in zip(sums, results)]
    cases, several, lost, apart = sums
    print(f"{cases} cases, {several} of several days, {lost} skipped, {apart} differ")
    return 1 if apart else 0


if __name__ == "__main__":
    end(main)
