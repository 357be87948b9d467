"""Measures one command over a file."""
import math
import os
import subprocess


def measure(words, path, runs):
    """The least processor time of some runs, the peak of memory in megabytes, and what is written."""
    best, peak, written = math.inf, 0, b""
    for _ in range(runs):
        with open(path) as file:
            process = subprocess.Popen(words, stdin=file, stdout=subprocess.DEVNULL, stderr=subprocess.PIPE)
            written = process.stderr.read()
            usage = os.wait4(process.pid, 0)[2]
        best = min(best, usage.ru_utime + usage.ru_stime)
        peak = max(peak, usage.ru_maxrss * 1024 / 10**6)
    return best, peak, written.decode()
