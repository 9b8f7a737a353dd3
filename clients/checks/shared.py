"""What the checks of the clients share with those of verify/, whose modules they may import."""
import os
import sys

TOP = os.path.abspath(os.path.join(os.path.dirname(__file__), "..", ".."))
sys.path += [os.path.join(TOP, "verify"), os.path.join(TOP, "tools")]

from command_line import MISSING, need_python
from lib.checks import check, verdict
from lib.common import CommandLine, compact, end, file_at, need, run

SAMPLES = os.path.join(TOP, "examples", "samples.journal")
__all__ = ["MISSING", "SAMPLES", "TOP", "CommandLine", "check", "compact", "end", "file_at", "need",
           "need_python", "run", "verdict"]
