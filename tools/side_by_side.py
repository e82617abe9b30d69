"""How many checks `rt ci` runs side by side."""
import os

# What a check takes at most, in bytes. `rt ci` itself reckons with over twice that, and would leave processors idle.
MEMORY_OF_A_CHECK = 5_000_000_000


def checks_at_once():
    """One for each processor, as far as memory reaches."""
    with open("/proc/meminfo", encoding="ascii") as figures:
        free = 1024 * next(int(line.split()[1]) for line in figures if line.startswith("MemAvailable:"))
    return max(1, min(len(os.sched_getaffinity(0)), free // MEMORY_OF_A_CHECK))


def set_checks_at_once():
    """Has each `rt ci` that is begun from here run that many, unless RT_JOBS says another number."""
    os.environ.setdefault("RT_JOBS", str(checks_at_once()))
