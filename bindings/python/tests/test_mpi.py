"""Four processes of MPI."""

import pathlib
import re
import shutil
import subprocess
import sys

import pytest

pytest.importorskip("mpi4py")
pytestmark = pytest.mark.skipif(not shutil.which("mpirun"), reason="there is no mpirun")
MPIRUN = "mpirun --allow-run-as-root --oversubscribe --mca btl tcp,self -n 4".split()
TESTS = pathlib.Path(__file__).resolve().parent


def by_four(program):
    words = [*MPIRUN, sys.executable, "-m", "mpi4py", program]
    done = subprocess.run(words, capture_output=True, text=True, timeout=120)
    assert done.returncode == 0, done.stderr
    return done.stdout


def test_four_processes():
    assert by_four(TESTS / "mpi_names.py") == "tight\n"


def test_the_program_of_the_page(tmp_path):
    shown = re.search(r"In `ids.py`:\n\n```python\n(.*?)^```$", (TESTS.parent / "ENGINES.md").read_text(), re.M | re.S)
    (tmp_path / "ids.py").write_text(shown[1])
    assert by_four(tmp_path / "ids.py").count(" clients of 1000 are here, with names from ") == 4
