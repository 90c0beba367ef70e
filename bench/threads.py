#!/usr/bin/env python3
"""Tells what the threads of a running `richd serve --listen` take of the processors, while somebody loads it.

usage: bench/threads.py PID SECONDS EDITS     (EDITS: how many edits a second the load reports)

Prints, in microseconds an edit, for the busiest thread (the flusher's, where many sessions write) and for all others together: on a
processor in the program, on one in the kernel, and ready but waiting for one. By Linux's /proc. With the instructions of a session's
thread (docs/SPEED.md) the first of these gives the time of an instruction, and so that of what is done under the board's lock.
"""
import os
import sys
import time

pid, seconds, edits = int(sys.argv[1]), float(sys.argv[2]), float(sys.argv[3])
TICK = os.sysconf("SC_CLK_TCK")


def used():
    """For each thread seconds in the program, in the kernel, and waiting."""
    threads = {}
    for thread in os.listdir(f"/proc/{pid}/task"):
        with open(f"/proc/{pid}/task/{thread}/stat") as file:
            fields = file.read().rsplit(")", 1)[1].split()
        with open(f"/proc/{pid}/task/{thread}/schedstat") as file:
            waited = int(file.read().split()[1])
        threads[thread] = int(fields[11]) / TICK, int(fields[12]) / TICK, waited / 1e9
    return threads


before = used()
time.sleep(seconds)
after = used()
spent = [tuple(b - a for a, b in zip(before[thread], after[thread])) for thread in before if thread in after]
spent.sort(key=lambda times: times[0] + times[1], reverse=True)
for name, threads in (("the busiest thread", spent[:1]), (f"{len(spent) - 1} others", spent[1:])):
    program, kernel, waiting = (sum(column) / seconds / edits * 1e6 for column in zip(*threads))
    print(f"{name}: {program:.1f} us in the program, {kernel:.1f} in the kernel, {waiting:.1f} waiting for a processor")
