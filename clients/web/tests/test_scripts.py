"""The scripts of the page, by node's own runner of tests."""
from __future__ import annotations

import shutil
import subprocess
from pathlib import Path

import pytest

import oldstyle_web

HERE = Path(__file__).resolve().parent
STATIC = Path(oldstyle_web.__file__).parent / "static"


@pytest.mark.parametrize("name", sorted(path.name for path in (HERE / "scripts").iterdir()))
def test_a_script(tmp_path: Path, name: str) -> None:
    if not (node := shutil.which("node")):
        pytest.skip("it requires node")
    (tmp_path / "package.json").write_text('{"type": "module"}')
    for path in [*STATIC.glob("*.js"), HERE / "scripts" / name]:
        shutil.copy(path, tmp_path)
    done = subprocess.run([node, "--test", name], cwd=tmp_path, text=True, capture_output=True,
                          check=False)
    assert done.returncode == 0, done.stdout
