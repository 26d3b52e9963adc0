"""Runs the tests of the tool. The last line counts what ran; the status is 0 only where all of it passed."""

import sys
import unittest
from pathlib import Path

sys.dont_write_bytecode = True
sys.path.insert(0, str(Path(__file__).resolve().parent))

from recorded import counted


def main():
    suite = unittest.defaultTestLoader.discover(str(Path(__file__).resolve().parent))
    result = unittest.TextTestRunner(stream=sys.stdout, verbosity=1).run(suite)
    looked_at = ", ".join(f"{n} {what}" for what, n in sorted(counted.items()))
    skipped = "".join(f"; skipped: {why}" for why in sorted({why for _, why in result.skipped}))
    failed = len(result.failures) + len(result.errors)
    print(f"tool: {result.testsRun - len(result.skipped)} tests, {failed} failed, over {looked_at}{skipped}")
    return 0 if result.wasSuccessful() and result.testsRun > len(result.skipped) else 1


if __name__ == "__main__":
    sys.exit(main())
