"""Gives texts to `run` on standard input and times the program, for the scripts beside this file."""
import os
import subprocess
import sys
import tempfile
import time
from pathlib import Path

PROGRAM = Path(__file__).resolve().parent.parent / "crates/tampi_cli/out/tampi_cli"
RUNS = 3


def run(program, text):
    """The time in seconds, the most memory in MiB, the status and the first line of the output of one run."""
    with tempfile.TemporaryFile() as given, tempfile.TemporaryFile() as written:
        given.write(text)
        given.seek(0)
        began = time.perf_counter()
        ran = subprocess.Popen([program, "run"], stdin=given, stdout=written)
        _, status, usage = os.wait4(ran.pid, 0)
        took = time.perf_counter() - began
        ran.returncode = os.waitstatus_to_exitcode(status)
        written.seek(0)
        return took, usage.ru_maxrss / 1024, ran.returncode, written.readline()


def time_all(texts):
    """A line for half of the count and for all of it of each text: its name, what makes it, and its count."""
    program = Path(sys.argv[1] if len(sys.argv) > 1 else PROGRAM).resolve()
    for name, make, most in texts:
        for count in (most // 2, most):
            text = make(count).encode()
            runs = [run(program, text) for _ in range(RUNS)]
            least = min(r[0] for r in runs) * 1000
            memory = max(r[1] for r in runs)
            print(f"{name:22} {count:7} {least:9.1f} ms {memory:7.1f} MiB  status {runs[0][2]}  {runs[0][3][:30]!r}", flush=True)
