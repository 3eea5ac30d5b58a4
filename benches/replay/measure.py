"""Scripts of 18 publishes at a time, six of each quality of service, and the tapes that answer them."""
import os
import sys
import tempfile
import time

PROGRAM = sys.argv[1]
GROUP = 18


def source(publishes):
    lines, tape, identifier = ["tasks 1"], ["tape", "open", "hear 20020000"], 0
    for _ in range(publishes // GROUP):
        acknowledged, completed = "", ""
        for place in range(GROUP):
            qos = place % 3
            lines.append(f"0 publish {qos} a -")
            if qos > 0:
                identifier = identifier % 65535 + 1
                kind = "4002" if qos == 1 else "5002"
                acknowledged += f"{kind}{identifier:04x}"
            if qos == 2:
                completed += f"7002{identifier:04x}"
        lines.append("0 wait")
        tape += [f"hear {acknowledged}", f"hear {completed}"]
    return ("\n".join(lines + tape) + "\n").encode()


def replay(text):
    """The seconds that a replay takes, its peak memory in bytes and its entries."""
    with tempfile.TemporaryFile() as script, tempfile.TemporaryFile() as journal:
        script.write(text)
        script.seek(0)
        start = time.monotonic()
        child = os.posix_spawn(
            PROGRAM,
            [PROGRAM, "replay", "--client", "dev"],
            os.environ,
            file_actions=[(os.POSIX_SPAWN_DUP2, script.fileno(), 0), (os.POSIX_SPAWN_DUP2, journal.fileno(), 1)],
        )
        _, status, usage = os.wait4(child, 0)
        seconds = time.monotonic() - start
        if status != 0:
            sys.exit(f"the replay ended with {status}")
        journal.seek(0)
        return seconds, usage.ru_maxrss * 1024, sum(line.startswith(b"@") for line in journal)


first = None
for publishes in (10_000, 20_000, 40_000):
    text = source(publishes)
    seconds, memory, entries = min(replay(text) for _ in range(3))
    first = first or seconds / entries
    print(
        f"{publishes} publishes, {len(text)} bytes of source, {entries} entries: {seconds:.3f} s, "
        f"{entries / seconds:.0f} entries a second, {memory / 2**20:.0f} MiB, {seconds / entries / first:.2f} of the first's time an entry"
    )
