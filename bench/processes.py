"""Runs of a program: how it ended, and what it took."""
import os
import pathlib
import subprocess
import time


class Run:
    """A run that is over: its exit status, the seconds that passed, and the processor's seconds, user and system."""

    def __init__(self, status, passed, used):
        self.status = status
        self.passed = passed
        self.used = used


def run(command, source=subprocess.DEVNULL, target=subprocess.DEVNULL, folder=None):
    start = time.perf_counter()
    process = subprocess.Popen(
        [str(word) for word in command], stdin=source, stdout=target, stderr=subprocess.DEVNULL, cwd=folder
    )
    _, waited, usage = os.wait4(process.pid, 0)
    process.returncode = os.waitstatus_to_exitcode(waited)
    return Run(process.returncode, time.perf_counter() - start, usage.ru_utime + usage.ru_stime)


def resident_peak(status):
    """The greatest resident memory that a status file of /proc tells, in bytes; None where it tells none."""
    for line in status.splitlines():
        if line.startswith("VmHWM:"):
            return int(line.split()[1]) * 1024
    return None


def peak_memory(command):
    """The exit status of a run and the greatest resident memory, in bytes, that was seen while it ran.

    It is read from /proc until the run ends, so the run has to stay at its peak for some tenths of a second.
    """
    process = subprocess.Popen(
        [str(word) for word in command], stdin=subprocess.DEVNULL, stdout=subprocess.DEVNULL, stderr=subprocess.DEVNULL
    )
    peak = 0
    status = pathlib.Path(f"/proc/{process.pid}/status")
    while process.poll() is None:
        try:
            peak = max(peak, resident_peak(status.read_text()) or 0)
        except OSError:
            pass
        time.sleep(0.005)
    return process.returncode, peak


def processor_name():
    with open("/proc/cpuinfo") as lines:
        for line in lines:
            if line.startswith("model name"):
                return line.split(":", 1)[1].strip()
    return "unknown processor"
