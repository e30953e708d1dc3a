#!/usr/bin/env python3
"""Writes the example dump snapshot-900.bin to standard output: a collector forwards closures while a snapshot walker reads them.

    python3 examples/snapshot.py > examples/snapshot-900.bin

Thread 0 is the collector, thread 1 the walker, threads 2 and 3 run scripts. Variables 0 to 7 are the headers of closures, 20 to 59 their slots.
Lock 0 guards the heap, locks 1 to 3 are the scripts' monitors. The sites say what was being done:

    10 collector: lock the heap       20 walker: lock the heap          30 script: enter a monitor
    11 collector: read a header       21 walker: read a header          31 script: read a slot
    12 collector: read a slot         22 walker: unlock the heap        32 script: write a slot
    13 collector: copy a slot         23 walker: read a header without  33 script: leave the monitor
    14 collector: forward a header       the lock (the short way)       34 script: lock the heap
    15 collector: unlock the heap                                       35 script: write a new header
                                                                        36 script: unlock the heap
"""
import struct
import sys

READ, WRITE, ACQUIRE, RELEASE = 1, 2, 3, 4
EVENTS = 900


class Numbers:
    """A fixed sequence of numbers, so that the dump is the same each time."""

    def __init__(self, seed):
        self.state = seed

    def below(self, n):
        self.state = (self.state * 6364136223846793005 + 1442695040888963407) % 2**64
        return (self.state >> 33) % n


def collector(r):
    steps = [(ACQUIRE, 0, 10)]
    for _ in range(1 + r.below(3)):
        header, slot = r.below(8), 20 + r.below(40)
        steps += [(READ, header, 11), (READ, slot, 12), (WRITE, slot, 13), (WRITE, header, 14)]
    return steps + [(RELEASE, 0, 15)]


def walker(r):
    first = r.below(8)
    if r.below(4) == 0:
        return [(READ, first, 23), (READ, (first + 1) % 8, 23)]
    headers = [(READ, (first + k) % 8, 21) for k in range(1 + r.below(4))]
    return [(ACQUIRE, 0, 20)] + headers + [(RELEASE, 0, 22)]


def script(r):
    if r.below(6) == 0:
        return [(ACQUIRE, 0, 34), (WRITE, r.below(8), 35), (RELEASE, 0, 36)]
    slot = 20 + r.below(40)
    monitor = 1 + slot % 3
    body = [(WRITE, slot, 32) if r.below(3) == 0 else (READ, slot, 31) for _ in range(1 + r.below(3))]
    return [(ACQUIRE, monitor, 30)] + body + [(RELEASE, monitor, 33)]


def trace():
    r = Numbers(900)
    waiting = {t: [] for t in range(4)}
    holder = {}
    made = []
    while len(made) < EVENTS:
        t = r.below(4)
        waiting[t] = waiting[t] or [collector, walker, script, script][t](r)
        for _ in range(1 + r.below(6)):
            kind, subject, site = waiting[t][0]
            if kind == ACQUIRE and subject in holder:
                break
            if kind == ACQUIRE:
                holder[subject] = t
            elif kind == RELEASE:
                del holder[subject]
            waiting[t].pop(0)
            made.append((kind, t, subject, site))
            if not waiting[t]:
                break
    return made[:EVENTS]


for event in trace():
    sys.stdout.buffer.write(struct.pack("<BBHI", *event))
