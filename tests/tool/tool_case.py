"""A test that runs the tool as a person does: what it prints, where, and with which status."""

import importlib.util
import io
import os
import shutil
import sys
import tempfile
import unittest
from pathlib import Path

from recorded import ROOT, count

TOOL = ROOT / "tools/jamfell.py"
SAMPLES = ROOT / "tools/samples"


def tool_main():
    """The tool's own start. It stands beside a package of its name, so it is loaded by its place."""
    spec = importlib.util.spec_from_file_location("jamfell_tool", TOOL)
    module = importlib.util.module_from_spec(spec)
    spec.loader.exec_module(module)
    return module.main


MAIN = tool_main()


class ToolCase(unittest.TestCase):
    def setUp(self):
        self.folder = Path(tempfile.mkdtemp())
        self.addCleanup(shutil.rmtree, self.folder)

    def file(self, name, data):
        path = self.folder / name
        path.write_bytes(data if isinstance(data, bytes) else data.encode())
        return path

    def run_tool(self, *words, given=b""):
        """In this process, which saves the start of Python. What main() does not catch, a traceback for the user, fails the test."""
        kept = sys.stdin, sys.stdout, sys.stderr, os.getcwd()
        sys.stdin, sys.stdout, sys.stderr = (io.TextIOWrapper(io.BytesIO(data), "utf-8") for data in (given, b"", b""))
        os.chdir(self.folder)
        try:
            status = MAIN([str(word) for word in words])
        except SystemExit as end:
            status = end.code
        finally:
            streams = sys.stdout, sys.stderr
            sys.stdin, sys.stdout, sys.stderr = kept[:3]
            os.chdir(kept[3])
        count("commands")
        for stream in streams:
            stream.flush()
        return status, *(stream.buffer.getvalue().decode() for stream in streams)

    def good(self, *words, given=b""):
        status, out, err = self.run_tool(*words, given=given)
        self.assertEqual((status, err), (0, ""), words)
        return out

    def refused(self, *words, given=b""):
        """The one line that says why."""
        status, _, err = self.run_tool(*words, given=given)
        self.assertEqual(status, 1, words)
        self.assertEqual(err.count("\n"), 1, err)
        self.assertTrue(err.startswith("jamfell: "), err)
        return err.removeprefix("jamfell: ").rstrip("\n")
