#!/usr/bin/env python3
"""Writes the example dump walker-40.bin to standard output: a machine starts a snapshot walker, runs on beside it, and awaits it.

    python3 examples/walker.py > examples/walker-40.bin

Thread 0 is the machine, thread 1 the walker. Variables 0 to 3 are the headers of closures, 4 is the tally, lock 0 guards the heap. The machine sets up
the headers and the tally in no lock, since the walker is not there yet, and reads them in no lock at the end, since it has awaited it. The sites say
what was being done:

    10 machine: set up a header       20 walker: lock the heap
    11 machine: set up the tally      21 walker: read a header
    12 machine: start the walker      22 walker: read the tally
    13 machine: lock the heap         23 walker: write the tally
    14 machine: forward a header      24 walker: unlock the heap
    15 machine: unlock the heap
    16 machine: renew a header without the lock (the short way)
    17 machine: await the walker
    18 machine: read a header
    19 machine: read the tally
"""
import struct
import sys

READ, WRITE, ACQUIRE, RELEASE, SPAWN, JOIN = 1, 2, 3, 4, 5, 6
MACHINE, WALKER = range(2)
HEADERS, TALLY, HEAP = range(4), 4, 0

SET_UP = [(WRITE, header, 10) for header in HEADERS] + [(WRITE, TALLY, 11), (SPAWN, WALKER, 12)]
FORWARD = [[(ACQUIRE, HEAP, 13), (WRITE, header, 14), (RELEASE, HEAP, 15)] for header in HEADERS]
RENEW = [[(WRITE, header, 16)] for header in HEADERS]
SUM_UP = [(JOIN, WALKER, 17)] + [(READ, header, 18) for header in HEADERS] + [(READ, TALLY, 19)]

RUN_ON = FORWARD[2] + RENEW[1] + FORWARD[0] + RENEW[3]
WALK = [step for header in HEADERS
        for step in [(ACQUIRE, HEAP, 20), (READ, header, 21), (READ, TALLY, 22), (WRITE, TALLY, 23), (RELEASE, HEAP, 24)]]


class Numbers:
    """A fixed sequence of numbers, so that the dump is the same each time."""

    def __init__(self, seed):
        self.state = seed

    def below(self, n):
        self.state = (self.state * 6364136223846793005 + 1442695040888963407) % 2**64
        return (self.state >> 33) % n


def beside(r, waiting):
    """The steps of both threads, one thread at a time; a lock is acquired where it is free."""
    made = []
    inside = None
    while waiting[MACHINE] or waiting[WALKER]:
        thread = r.below(2)
        for _ in range(1 + r.below(4)):
            if not waiting[thread]:
                break
            kind, subject, site = waiting[thread][0]
            if kind == ACQUIRE and inside is not None:
                break
            if kind == ACQUIRE:
                inside = thread
            elif kind == RELEASE:
                inside = None
            waiting[thread].pop(0)
            made.append((kind, thread, subject, site))
    return made


def trace():
    between = beside(Numbers(40), [list(RUN_ON), list(WALK)])
    return [(kind, MACHINE, subject, site) for kind, subject, site in SET_UP] + between + [
        (kind, MACHINE, subject, site) for kind, subject, site in SUM_UP]


for event in trace():
    sys.stdout.buffer.write(struct.pack("<BBHI", *event))
