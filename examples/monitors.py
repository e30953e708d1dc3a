#!/usr/bin/env python3
"""Writes the example dump monitors-60.bin to standard output: scripts of an oven that enter a monitor which they are in already.

    python3 examples/monitors.py > examples/monitors-60.bin

Thread 0 regulates, thread 1 watches the door, thread 2 serves the panel. Variable 0 is the wanted heat, 1 the heater, 2 the door, 3 the clock of
the last change, 4 a line of the log. Lock 0 is the monitor of the oven, lock 1 that of the log. The regulator calls `switch`, which enters the
oven's monitor, in which its caller is already; the door's script calls it by `stop`, which enters the monitor too. Behind these calls both write
the clock, in the monitor still. The sites say what was being done:

    10 regulator: enter the oven      20 door: enter the oven        30 panel: read the heater, in no monitor
    11 regulator: read the heat       21 door: write the door        31 panel: enter the oven
    12 regulator: write the clock     22 door: write the clock       32 panel: write the heat
    13 regulator: leave the oven      23 door: leave the oven        33 panel: leave the oven
                                                                     34 panel: enter the oven
    40 stop: enter the oven           50 switch: enter the oven      35 panel: read the clock
    41 stop: read the door            51 switch: write the heater    36 panel: leave the oven
    42 stop: leave the oven           52 switch: enter the log
                                      53 switch: write the line
                                      54 switch: leave the log
                                      55 switch: leave the oven
"""
import struct
import sys

READ, WRITE, ACQUIRE, RELEASE = 1, 2, 3, 4
HEAT, HEATER, DOOR, CLOCK, LINE = range(5)
OVEN, LOG = range(2)
EVENTS = 60

LINE_WRITTEN = [(ACQUIRE, LOG, 52), (WRITE, LINE, 53), (RELEASE, LOG, 54)]
SWITCH = [(ACQUIRE, OVEN, 50), (WRITE, HEATER, 51)] + LINE_WRITTEN + [(RELEASE, OVEN, 55)]
STOP = [(ACQUIRE, OVEN, 40), (READ, DOOR, 41)] + SWITCH + [(RELEASE, OVEN, 42)]

REGULATOR = [(ACQUIRE, OVEN, 10), (READ, HEAT, 11)] + SWITCH + [(WRITE, CLOCK, 12), (RELEASE, OVEN, 13)]
DOOR_WATCH = [(ACQUIRE, OVEN, 20), (WRITE, DOOR, 21)] + STOP + [(WRITE, CLOCK, 22), (RELEASE, OVEN, 23)]
PANEL = [(READ, HEATER, 30), (ACQUIRE, OVEN, 31), (WRITE, HEAT, 32), (RELEASE, OVEN, 33)]
PANEL += [(ACQUIRE, OVEN, 34), (READ, CLOCK, 35), (RELEASE, OVEN, 36)]


class Numbers:
    """A fixed sequence of numbers, so that the dump is the same each time."""

    def __init__(self, seed):
        self.state = seed

    def below(self, n):
        self.state = (self.state * 6364136223846793005 + 1442695040888963407) % 2**64
        return (self.state >> 33) % n


def trace():
    r = Numbers(60)
    waiting = {t: [] for t in range(3)}
    inside = {}  # of each lock that is held, its thread once for each time that it is in it
    made = []
    while len(made) < EVENTS:
        t = r.below(3)
        waiting[t] = waiting[t] or list([REGULATOR, DOOR_WATCH, PANEL][t])
        for _ in range(1 + r.below(6)):
            kind, subject, site = waiting[t][0]
            held = inside.setdefault(subject, []) if kind >= ACQUIRE else []
            if kind == ACQUIRE and held and held[0] != t:
                break
            if kind == ACQUIRE:
                held.append(t)
            elif kind == RELEASE:
                held.pop()
            waiting[t].pop(0)
            made.append((kind, t, subject, site))
            if not waiting[t]:
                break
    return made[:EVENTS]


for event in trace():
    sys.stdout.buffer.write(struct.pack("<BBHI", *event))
