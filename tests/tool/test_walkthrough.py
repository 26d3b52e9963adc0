"""docs/WALKTHROUGH.md and README.md: each command is run, in its order, and prints exactly what stands under it."""

import os
import re
import shutil
import subprocess
import tempfile
import unittest
from pathlib import Path

from recorded import ROOT, count
from test_library import ABSENT

from jamfell.from_text import CREDENTIAL_FIELDS, REGISTRY_FIELDS, attempt_fields
from jamfell.library import ARCHIVE
from jamfell.values import KINDS

PAGE = (ROOT / "docs/WALKTHROUGH.md").read_text()
README = (ROOT / "README.md").read_text()


def commands(page):
    """Each command of a page, and what it shows. An empty line between two lines of an indented block is one of the block."""
    for block in re.findall(r"(?:^    .*\n(?:\n+(?=    ))?)+", page, re.M):
        lines = [line[4:] for line in block.splitlines()]
        if not lines[0].startswith("$ "):
            if page is README:
                continue
            raise AssertionError(f"a block without a command: {lines[0]}")
        starts = [place for place, line in enumerate(lines) if line.startswith("$ ")] + [len(lines)]
        for start, end in zip(starts, starts[1:]):
            yield lines[start][2:], "".join(f"{line}\n" for line in lines[start + 1 : end])


def needs_library(command):
    return "jamfell.py ledger" in command or "jamfell.py status" in command or "ledger.img" in command


class Walkthrough(unittest.TestCase):
    def setUp(self):
        """A folder in which the commands can leave files: it has the repository's tools and its run.sh."""
        self.folder = Path(tempfile.mkdtemp())
        self.addCleanup(shutil.rmtree, self.folder)
        (self.folder / "tools").symlink_to(ROOT / "tools")
        (self.folder / "run.sh").write_text(f'#!/bin/sh\nexec "{ROOT}/run.sh" "$@"\n')
        (self.folder / "run.sh").chmod(0o755)

    def follow(self, page, wanted):
        done = 0
        for command, shown in commands(page):
            if not wanted(command):
                continue
            environment = {**os.environ, "LC_ALL": "C"}
            said = subprocess.run(["bash", "-c", command], cwd=self.folder, stdout=subprocess.PIPE, stderr=subprocess.STDOUT, env=environment)
            self.assertEqual(said.stdout.decode(), shown, command)
            done += 1
        count("commands of the walkthrough", done)
        return done

    def test_without_library(self):
        self.assertGreater(self.follow(PAGE, lambda command: not needs_library(command)), 5)

    @unittest.skipUnless(ARCHIVE.is_file(), ABSENT)
    def test_with_library(self):
        self.assertGreater(self.follow(PAGE, needs_library), 10)

    @unittest.skipUnless(ARCHIVE.is_file(), ABSENT)
    def test_readme(self):
        self.assertGreater(self.follow(README, needs_library), 5)

    def test_fields(self):
        """The table of the text form has the fields that the tool takes."""
        table = dict(re.findall(r"^\| (`[a-z -]+`|each of these six) \| (.*) \|$", PAGE, re.M))
        named = {header.strip("`"): re.findall(r"`([a-z.-]+)`", cell) for header, cell in table.items()}
        for kind in KINDS:
            of_evidence = tuple(field for field in attempt_fields(kind) if not field.startswith("evidence."))
            self.assertEqual(set(named[f"attempt {kind}"] + named["each of these six"]), set(of_evidence), kind)
        self.assertEqual(tuple(named["registry-state"]), REGISTRY_FIELDS)
        self.assertEqual(tuple(named["credential-state"]), CREDENTIAL_FIELDS)
