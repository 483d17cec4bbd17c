"""The package without numpy, which is hidden for this."""
import os
import subprocess
import sys

from links import TOP


def test_without_numpy():
    hidden = "import sys, runpy; sys.modules['numpy'] = None; runpy.run_path(sys.argv[1], run_name='__main__')"
    environment = {**os.environ, "PYTHONPATH": os.pathsep.join(sys.path)}
    ran = subprocess.run(
        [sys.executable, "-c", hidden, f"{TOP}/python/tests/plain.py"],
        env=environment,
        stdout=subprocess.PIPE,
        text=True,
    )
    assert ran.returncode == 0 and ran.stdout.endswith("alone: passed\n")
