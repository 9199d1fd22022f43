"""The example replays the sample that ships here."""

from __future__ import annotations

import os
import subprocess
import sys
import unittest
from pathlib import Path

PYTHON = Path(__file__).parents[1]
SAMPLE = PYTHON.parent / "sample-data"


def lines(*words: object) -> list[str]:
    """What the example prints."""
    environment = {**os.environ, "PYTHONPATH": str(PYTHON)}
    command = [sys.executable, str(PYTHON / "examples/replay_day.py"), *map(str, words)]
    return subprocess.run(command, env=environment, check=True, stdout=subprocess.PIPE).stdout.decode().splitlines()


class Example(unittest.TestCase):
    """examples/replay_day.py"""

    def test_the_sample_is_replayed(self) -> None:
        said = lines()
        self.assertEqual(said, lines(SAMPLE / "profile", SAMPLE / "records.hex"))
        self.assertEqual(said[0], "<Unit of firm ABCD, rules: 4, roots: 2, clock 00:00:00.000>")
        self.assertEqual(said[2], "   2 00:00:00.400 offer 200 call front at 7.00 on XYZ: granted 100 (cut), tripped: root")
        self.assertEqual(said[4], "   4 00:00:00.450999 order on XYZ, reset t: passed")
        self.assertEqual(said[12], "  12 00:00:00.920 report of 300 on order 7: counted 300")
        self.assertEqual(said[15].partition(": ")[0], "  15 00:00:01.000 order on root 5, reset none")
        self.assertEqual(said[20], "granted 2916 contracts in all")
        self.assertEqual([line.split()[:3] for line in said[22:]], [["0", "50", "2916"], ["1", "0", "3016"], ["2", "20000", "3250"], ["3", "2", "2916"]])
