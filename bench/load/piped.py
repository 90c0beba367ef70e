"""What commands over standard input cost a server of a new store with one document."""
import os
import resource
import subprocess
import sys
import tempfile

from richd import messages
from richd.program import find, format_store

WORDS = ["--docs", "1", "--cell", "16777216", "--slots", "2", "--slot", "16777216", "--keep", "4096"]


def processor_time(commands, answered):
    """The processor's seconds of a server with a new store that is given these commands."""
    with tempfile.TemporaryDirectory() as folder:
        store = os.path.join(folder, "store")
        format_store(store, *WORDS)
        lines = b"".join(map(messages.spelled, [messages.hello("bench"), *commands]))
        before = resource.getrusage(resource.RUSAGE_CHILDREN)
        served = subprocess.run([find(), "serve", store, "--every", "65536"], input=lines, capture_output=True)
        after = resource.getrusage(resource.RUSAGE_CHILDREN)
    replies = served.stdout.count(b'"ok":')
    if replies != answered:
        sys.exit(f"{replies} of {answered} requests were answered ok: {served.stdout[-200:]!r}")
    return after.ru_utime - before.ru_utime + after.ru_stime - before.ru_stime


def cost(base, more, rounds):
    """Microseconds of one of the further commands: the least of so many runs with them, less the least without."""
    base = list(base)
    least = min(processor_time(base, 1 + len(base)) for _ in range(rounds))
    whole = min(processor_time(base + more, 1 + len(base) + len(more)) for _ in range(rounds))
    return 1e6 * (whole - least) / len(more)
