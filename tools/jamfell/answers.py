"""Answers in words: a number and its letter, or a whole report of 36 bytes."""

import re
from typing import NamedTuple, Optional

from .faults import Fault, Malformed
from .refusals import AWAITED, DISPOSITIONS, LIST_RULES, REFUSALS, STANDINGS
from .values import MOST_BACKERS

REPORT_LENGTH = 36


class Report(NamedTuple):
    number: int
    letter: str
    # None where it is not known, as of a line of the printed program.
    values: Optional[tuple] = None

    @property
    def row(self):
        return REFUSALS[self.number]

    @property
    def awaits(self):
        return self.row.awaits if self.letter == "W" else 0


def refusal(number):
    if number not in REFUSALS:
        raise Fault(f"there is no number {number}: the numbers are 0 to {max(REFUSALS)}")
    return REFUSALS[number]


def _check_letter(report):
    row = report.row
    if report.letter not in row.letters:
        raise Malformed(1, "disposition", f"'{report.letter}' is not the letter of {row.number} {row.name}, which is {' or '.join(row.letters)}")
    if row.number == 16 and (report.letter == "W") != (report.values[1] > report.values[0]):
        raise Malformed(1, "disposition", "16 OutOfOrder is W exactly where actual is above expected")


def _check_values(report):
    number, values = report.number, report.values
    if number == 16 and values[0] == values[1]:
        raise Malformed(20, "second value", "16 OutOfOrder has an actual that is not the expected")
    if number == 24 and values[0] not in LIST_RULES:
        raise Malformed(4, "first value", f"there is no rule {values[0]}: the rules are 1 to {max(LIST_RULES)}")
    if number == 24 and values[1] >= MOST_BACKERS:
        raise Malformed(20, "second value", f"there is no position {values[1]}: a list has at most {MOST_BACKERS} elements")
    if number == 27 and values[0] >= values[1]:
        raise Malformed(4, "first value", "27 MissingBackerReceipts has fewer valid receipts than required")


def decode_report(data):
    """A report, held to all that the rules say of its parts."""
    if len(data) != REPORT_LENGTH:
        raise Malformed(min(len(data), REPORT_LENGTH), "report", f"a report has {REPORT_LENGTH} bytes, and this one {len(data)}")
    number, letter, awaits, count = data[:4]
    if number not in REFUSALS:
        raise Malformed(0, "number", f"there is no number {number}: the numbers are 0 to {max(REFUSALS)}")
    expected = len(REFUSALS[number].details)
    if count != expected and not (number == 0 and count == 1):
        raise Malformed(3, "how many values", f"there are {count}, and {number} {REFUSALS[number].name} has {expected}")
    values = (int.from_bytes(data[4:20], "big"), int.from_bytes(data[20:36], "big"))
    for place in range(count, 2):
        if values[place]:
            raise Malformed(4 + 16 * place, "values", f"there are {count}, so this one is 0, and it is {values[place]}")
    report = Report(number, chr(letter), values[:count])
    _check_letter(report)
    _check_values(report)
    if awaits != report.awaits:
        raise Malformed(2, "evidence kind awaited", f"it is {awaits}, and of {number} {REFUSALS[number].name} it is {report.awaits}")
    return report


def _plain(when):
    """Without the headings that it names."""
    return re.sub(r' \("[^"]*"\)', "", when)


def cause(row):
    """What went wrong, for a reader who has not the rules at hand."""
    return row.more if row.when.startswith('"') else _plain(row.when)


def details(report):
    """The details with their values, as 'valid 1, required 2', or nothing."""
    if not report.values or not report.row.details:
        return ""
    told = ", ".join(f"{name} {value}" for name, value in zip(report.row.details, report.values))
    if report.number != 24:
        return told
    rule, position = report.values
    return f"{told}: {LIST_RULES[rule][0]}, at position {position} of the {LIST_RULES[rule][1]}, counted from 0"


def _letter(letter):
    name, advice = DISPOSITIONS[letter]
    return f"{name}: {advice}" if advice else name


def _awaited(kind):
    name, what = AWAITED[kind]
    return f"{kind} {name}: {what}"


def answer_lines(report):
    """Some lines for a refusal, none for an acceptance."""
    if report.number == 0:
        return []
    row, values = report.row, details(report)
    lines = [f"{cause(row)}: {values}" if values else cause(row), row.more]
    if report.number == 24:
        lines = [values or row.more]
    if row.more == cause(row):
        lines = lines[:1]
    lines.append(_letter(report.letter))
    lines.append(f"awaited: {_awaited(report.awaits)}" if report.awaits else "")
    return [line for line in lines if line]


def _accepted_value(value):
    standing = f"after a look-up: {STANDINGS[value]}; " if value in STANDINGS else ""
    return f"{value} ({standing}after an image or a state was written: so many bytes; after `ample`: the toad)"


def _when(row):
    return f"see docs/RULES.md, {row.when}" if row.when.startswith('"') else row.when


def explain_number(row):
    """All that the rules say of a number."""
    told = [("when", _when(row)), ("look at", row.more)]
    if len(row.letters) > 1:
        told += [("letter", "W if actual > expected, else C"), ("", f"W {_letter('W')}"), ("", f"C {_letter('C')}")]
    else:
        told.append(("letter", f"{row.letters} {_letter(row.letters)}"))
    told += [("awaits", _awaited(row.awaits) + (" (if W)" if len(row.letters) > 1 else "") if row.awaits else "")]
    return _told(row, told + [("details", ", ".join(row.details))])


def explain_report(report):
    """The same of one report, with its values."""
    told = [("when", _when(report.row)), ("look at", report.row.more), ("letter", f"{report.letter} {_letter(report.letter)}")]
    told += [("awaits", _awaited(report.awaits) if report.awaits else ""), ("details", details(report))]
    if report.number == 0 and report.values:
        told.append(("value", _accepted_value(report.values[0])))
    return _told(report.row, told)


def _told(row, told):
    return [f"{row.number} {row.title}"] + [f"  {label:7}  {words}" for label, words in told if words]
