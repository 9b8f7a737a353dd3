"""What the tests of files share."""
from __future__ import annotations

import os
import shutil
from typing import Iterator

import pytest

from oldstyle import Register
from oldstyle.commands import Context
from oldstyle.places import Places

JOURNAL = os.path.join(os.path.dirname(__file__), "..", "..", "..", "examples", "samples.journal")


@pytest.fixture
def context() -> Iterator[Context]:
    """A desk over the samples, with a table of two places. It requires the program."""
    if not shutil.which(os.environ.get("OLDSTYLE", "oldstyle")):
        pytest.skip("the program oldstyle is not there: name it in OLDSTYLE")
    with Register(JOURNAL) as register:
        places = Places(register.lands(), {"London": "GB", "Stockholm": "SE"})
        yield Context(register, places, None, True)
