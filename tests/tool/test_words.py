"""Numbers, names, letters and reports against docs/RULES.md, so that the tool and the page can't drift apart."""

import re
import unittest

from recorded import ROOT, count, folds

from jamfell import values
from jamfell.answers import answer_lines, decode_report, details, explain_number, explain_report
from jamfell.faults import Malformed
from jamfell.primitives import ROLES
from jamfell.refusals import AWAITED, DISPOSITIONS, LIST_RULES, REFUSALS, STANDINGS

RULES = (ROOT / "docs/RULES.md").read_text()


def tables(heading):
    """The tables of a section of the page: each a list of rows, each a list of cells."""
    section = re.search(rf"^## {re.escape(heading)}\n(.*?)(?=^## |\Z)", RULES, re.M | re.S).group(1)
    found = []
    for block in re.findall(r"(?:^\|.*\n)+", section, re.M):
        rows = [[cell.strip() for cell in line.strip("|\n").split("|")] for line in block.splitlines()]
        found.append(rows[:1] + rows[2:])
    return found


def letters(cell):
    """The letters of a cell, as 'T' or 'W if actual > expected, else C'."""
    return "".join(re.findall(r"\b[ATCW]\b", cell))


class Numbers(unittest.TestCase):
    def rows(self):
        """Both tables, with the columns of the first."""
        of_attempts, of_status = tables("Refusals")
        self.assertEqual(of_attempts[0], ["number", "name", "letter", "awaits", "details", "when"])
        self.assertEqual(of_status[0], ["number", "name", "letter", "awaits", "when"])
        return of_attempts[1:] + [row[:4] + [""] + row[4:] for row in of_status[1:]]

    def test_table(self):
        rows = self.rows()
        self.assertEqual([int(row[0]) for row in rows], list(range(40)))
        self.assertEqual(list(REFUSALS), list(range(40)))
        for number, name, letter, awaits, named, when in rows:
            row = REFUSALS[int(number)]
            self.assertEqual((row.number, row.title, row.letters), (int(number), name, letters(letter)))
            kind = re.fullmatch(r"(\d+) (\w+)( if W)?", awaits)
            self.assertEqual(row.awaits, int(kind.group(1)) if kind else 0, number)
            self.assertEqual(", ".join(row.details), named)
            self.assertEqual(row.when, when)
            if kind:
                self.assertEqual(AWAITED[row.awaits][0], kind.group(2))
            else:
                self.assertEqual(awaits, "")
            count("numbers")

    def test_explained(self):
        """`explain` has every cell of the table, and what the letter tells one to do."""
        for number, name, letter, awaits, named, when in self.rows():
            told = "\n".join(explain_number(REFUSALS[int(number)]))
            for cell in (f"{number} {name}\n", when, named, awaits.removesuffix(" if W")):
                self.assertIn(cell, told)
            for one in letters(letter):
                self.assertIn(f"{one} {DISPOSITIONS[one][0]}", told)
                self.assertIn(DISPOSITIONS[one][1], told)

    def test_awaited(self):
        line = re.search(r"^.*The kinds that occur are (.*)\.$", RULES, re.M).group(1)
        self.assertEqual([f"{kind} {name}" for kind, (name, _) in AWAITED.items()], re.split(r", | and ", line))

    def test_letters(self):
        names = {row[0]: row[1] for row in tables("Terms")[0]}["disposition"]
        self.assertEqual(", ".join(f"{letter} {name}" for letter, (name, _) in DISPOSITIONS.items()), names)
        for letter, (_, advice) in DISPOSITIONS.items():
            if advice:
                self.assertRegex(RULES, rf"[:;] {letter}, {re.escape(advice)}[;.]")

    def test_lists(self):
        """What stands behind the bytes: traits, seals, kinds, letters of the roles, rules of 24, standings."""
        self.assertEqual([(row[1], int(row[0])) for row in tables("Configuration traits")[0][1:]], [(t, n) for n, t in enumerate(values.TRAITS, 1)])
        self.assertEqual([row for row in tables("Identifiers and seals")[0][1:]], [[str(n), seal] for n, seal in enumerate(values.SEALS, 1)])
        self.assertEqual([row[:2] for row in tables("Event kinds")[0][1:]], [[str(n), kind] for n, kind in enumerate(values.KINDS, 1)])
        self.assertEqual({row[0]: row[1].replace(", ", "") for row in tables("Bytes")[0][1:]}, ROLES)
        rules = {int(row[0]): (row[1], row[2].removeprefix("the ")) for row in tables("Lists of backers")[0][1:]}
        self.assertEqual(rules, LIST_RULES)
        self.assertIn(", ".join(f"{n} {name}" for n, name in STANDINGS.items()), RULES)

    def test_sections(self):
        """Section 1 and 2 of each kind, and the limits."""
        table = tables("Bytes")[1]
        for column, kind in enumerate(table[0][1:], 1):
            primitives, numbers, config, first, second, seal = (row[column] for row in table[1:7])
            self.assertEqual(f"{len(values.PRIMITIVES[kind])}: {', '.join(values.PRIMITIVES[kind])}", primitives)
            named = values.NUMBERS[kind]
            self.assertEqual(f"{len(named)}: {', '.join(named)}" if named else "0", numbers)
            self.assertEqual(f"0 to {values.MOST_CONFIGS}" if kind == "vcp" else "0", config)
            members = values.MEMBERS.get(kind, (None, None))
            self.assertEqual([f"0 to {values.MOST_BACKERS} {name}s" if name else "0" for name in members], [first, second])
            self.assertEqual("1" if kind in values.SEALED else "0", seal)
            self.assertEqual(f"0 to {values.MOST_SIGNATURES}", table[9][column])


class Reports(unittest.TestCase):
    def test_recorded(self):
        """Every recorded answer is a report that the tool takes, and tells with its values."""
        for _, data, _ in folds():
            report = decode_report(data)
            self.assertEqual((report.number, ord(report.letter), report.awaits), tuple(data[:3]))
            told = "\n".join(explain_report(report))
            self.assertIn(f"{data[0]} {REFUSALS[data[0]].name}", told)
            for place, name in enumerate(report.row.details):
                value = int.from_bytes(data[4 + 16 * place : 20 + 16 * place], "big")
                self.assertIn(f"{name} {value}", details(report))
                self.assertIn(f"{name} {value}", "\n".join(answer_lines(report)))
            count("reports")

    def test_altered(self):
        """A report with another letter, evidence kind or count is refused, and so is one with a value too many."""
        for number, data in {data[0]: data for _, data, _ in folds()}.items():
            for at in (0, 1, 2, 3):
                for byte in {0, 2, 3, 40, 65, 84, 255} - {data[at]}:
                    other = data[:at] + bytes([byte]) + data[at + 1 :]
                    if at == 0 and self.same_shape(number, byte):
                        continue
                    with self.assertRaises(Malformed, msg=other.hex()):
                        decode_report(other)
            if data[3] < 2:
                with self.assertRaises(Malformed):
                    decode_report(data[:35] + b"\1")

    def same_shape(self, number, other):
        """Whether a report of the one can be read as one of the other."""
        a, b = REFUSALS[number], REFUSALS.get(other)
        return b is not None and (a.letters, a.awaits, len(a.details)) == (b.letters, b.awaits, len(b.details))

    def test_values(self):
        """Values that no call gives."""
        for number, letter, awaits, first, second, at in (
            (16, "C", 0, 2, 2, 20),
            (16, "C", 0, 1, 2, 1),
            (16, "W", 14, 2, 1, 1),
            (24, "T", 0, 0, 1, 4),
            (24, "T", 0, 7, 1, 4),
            (24, "T", 0, 1, 16, 20),
            (27, "W", 17, 2, 2, 4),
        ):
            data = bytes([number, ord(letter), awaits, 2]) + first.to_bytes(16, "big") + second.to_bytes(16, "big")
            with self.assertRaises(Malformed) as found:
                decode_report(data)
            self.assertEqual(found.exception.at, at, data.hex())

    def test_lengths(self):
        for length in (0, 1, 35, 37):
            with self.assertRaises(Malformed):
                decode_report((b"\0A" + bytes(40))[:length])
        self.assertEqual(decode_report(b"\0A" + bytes(34)).values, ())
