"""The events of seed 1, played by the program as a process."""
import os
import sys
import tempfile
import time

PROGRAM = sys.argv[1]


def play(events):
    """The seconds that a world takes, and its peak memory in bytes."""
    with tempfile.TemporaryFile() as printed:
        start = time.monotonic()
        child = os.posix_spawn(
            PROGRAM,
            [PROGRAM, "world", "--seed", "1", "--events", str(events)],
            os.environ,
            file_actions=[(os.POSIX_SPAWN_DUP2, printed.fileno(), 1)],
        )
        _, status, usage = os.wait4(child, 0)
        if status != 0:
            sys.exit(f"the world ended with {status}")
        return time.monotonic() - start, usage.ru_maxrss * 1024


first = None
for events in (10_000, 100_000, 1_000_000):
    runs = [play(events) for _ in range(3)]
    seconds, memory = min(run[0] for run in runs), max(run[1] for run in runs)
    first = first or (seconds / events, memory / events)
    print(
        f"{events} events: {seconds:.3f} s, {memory / 2**20:.0f} MiB at most; "
        f"an event takes {seconds / events / first[0]:.2f} of the first run's time "
        f"and {memory / events / first[1]:.2f} of its memory"
    )
