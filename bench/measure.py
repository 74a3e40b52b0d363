"""Measures a process: time, peak memory, and instructions. What cannot be measured here is None."""
import fcntl
import os
import re
import shutil
import subprocess
import time
from collections import namedtuple

# seconds by the clock on the wall, and of the processor (user and system)
Times = namedtuple("Times", "wall processor")


def once(command, source):
    """One run, its input from a file, its output thrown away."""
    with open(source, "rb") as text:
        start = time.perf_counter()
        process = subprocess.Popen(command, stdin=text, stdout=subprocess.DEVNULL, stderr=subprocess.DEVNULL)
        _, process.returncode, usage = os.wait4(process.pid, 0)
        wall = time.perf_counter() - start
    if process.returncode:
        raise RuntimeError("%s failed" % command[0])
    return Times(wall, usage.ru_utime + usage.ru_stime)


def best(command, source, runs):
    """The least times of several runs."""
    times = [once(command, source) for _ in range(runs)]
    return Times(min(t.wall for t in times), min(t.processor for t in times))


def high_water(pid):
    """The peak so far of a process that still runs, in KiB, where Linux tells it."""
    try:
        with open("/proc/%d/status" % pid) as status:
            told = re.search(r"VmHWM:\s+(\d+) kB", status.read())
    except OSError:
        return None
    return int(told[1]) if told else None


def peak(command, source):
    """The most memory that a run had at one time, in KiB. The output goes to a pipe of one page, so that the process is
    still there when its first characters arrive; Linux then tells the peak so far."""
    end, start = os.pipe()
    if hasattr(fcntl, "F_SETPIPE_SZ"):
        fcntl.fcntl(start, fcntl.F_SETPIPE_SZ, 4096)
    with open(source, "rb") as text:
        process = subprocess.Popen(command, stdin=text, stdout=start)
    os.close(start)
    most = None
    with open(end, "rb", buffering=0) as output:
        while output.read(4096):
            most = high_water(process.pid) or most
    process.wait()
    return most


def instructions(command, source, profile=os.devnull):
    """How many instructions a run executes, counted by callgrind, which leaves its profile in a file."""
    if not shutil.which("valgrind"):
        return None
    with open(source, "rb") as text:
        counted = subprocess.run(
            ["valgrind", "--tool=callgrind", "--callgrind-out-file=" + profile, *command],
            stdin=text, stdout=subprocess.DEVNULL, stderr=subprocess.PIPE,
        )
    found = re.search(rb"Collected : (\d+)", counted.stderr)
    return int(found[1]) if found else None


def hot_functions(profile, count):
    """The functions that execute the most instructions by a profile, each as its share and its name."""
    if not shutil.which("callgrind_annotate") or not os.path.exists(profile):
        return []
    report = subprocess.run(["callgrind_annotate", "--auto=no", profile], capture_output=True, text=True).stdout
    lines = re.findall(r"^\s*[\d,]+ \(\s*([\d.]+%)\)\s+(?:[^:\s]*:(?!:))?(\S.*?)(?: \[.*\])?$", report, re.M)
    return [line for line in lines if "PROGRAM TOTALS" not in line[1]][:count]
