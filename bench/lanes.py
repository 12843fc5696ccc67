"""How many checks go on at a time."""

import os

BYTES_OF_A_CHECK = 5 << 30


def number_in(path):
    """The number in a file, or none."""
    try:
        with open(path, encoding="utf-8") as file:
            return int(file.read())
    except (OSError, ValueError):
        return None


def free_memory():
    """The bytes that are free, also by the limit of a container."""
    with open("/proc/meminfo", encoding="utf-8") as file:
        free = next(1024 * int(it.split()[1]) for it in file if it.startswith("MemAvailable"))
    limit, used = number_in("/sys/fs/cgroup/memory.max"), number_in("/sys/fs/cgroup/memory.current")
    return free if limit is None or used is None else min(free, limit - used)


def lanes():
    """LANES, or else as many as there are processors, and room in memory for."""
    given = os.environ.get("LANES", "")
    return int(given) if given.isdigit() and int(given) else max(1, min(len(os.sched_getaffinity(0)), free_memory() // BYTES_OF_A_CHECK))
