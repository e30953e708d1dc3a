#!/usr/bin/env python3
"""Compares the reference with a search through all reorderings, on tiny traces.

    brute.py REFERENCE [TRACES [SEED]]

Everything here is read off docs/MODEL.md: no closures, no rules, only lists of positions and what
they must be. A trace is a list of (kind, thread, subject)."""
import itertools, random, struct, subprocess, sys

READ, WRITE, ACQUIRE, RELEASE, SPAWN, JOIN = 1, 2, 3, 4, 5, 6
LAST_LOCK, DEEPEST = 199, 255


def depth(events, thread, lock):
    """How deep the thread is in the lock after the events: its acquires of it less its releases."""
    return events.count((ACQUIRE, thread, lock)) - events.count((RELEASE, thread, lock))


def is_named(events, thread, kinds):
    """Whether an event of one of these kinds names the thread."""
    return any(kind in kinds and subject == thread for kind, _, subject in events)


def refusal(events, event):
    """Why the trace check turns the event away after the events: 15, 14, 5, 13, 6 or 0."""
    kind, thread, subject = event
    if is_named(events, thread, [JOIN]):
        return 15
    if kind in (SPAWN, JOIN) and subject == thread:
        return 14
    if kind == SPAWN and (any(t == subject for _, t, _ in events) or is_named(events, subject, [SPAWN, JOIN])):
        return 14
    if kind == ACQUIRE and any(depth(events, t, subject) > 0 for _, t, _ in set(events) if t != thread):
        return 5
    if kind == ACQUIRE and depth(events, thread, subject) == DEEPEST:
        return 13
    return 6 if kind == RELEASE and depth(events, thread, subject) == 0 else 0


def last_write(trace, positions, variable):
    """The last of these positions, in their order, that writes the variable; None if none does."""
    return ([None] + [i for i in positions if trace[i][0] == WRITE and trace[i][2] == variable])[-1]


def before(trace, i):
    """The positions of what the thread of i did before i."""
    return [j for j in range(i) if trace[j][1] == trace[i][1]]


def spawns(trace, i, thread):
    """The positions before i that spawn the thread."""
    return [j for j in range(i) if trace[j][0] == SPAWN and trace[j][2] == thread]


def awaited(trace, i):
    """The positions that a join at i awaits: what the thread that it names did, and the spawn of it."""
    kind, _, thread = trace[i]
    return [j for j in range(i) if trace[j][1] == thread] + spawns(trace, i, thread) if kind == JOIN else []


def ready(trace, i):
    """The positions that a list must have for i to be enabled: what its thread did before it, and the spawn of it."""
    return before(trace, i) + spawns(trace, i, trace[i][1])


def depth_at(trace, i):
    """How deep the thread of i is in the subject of i, as a lock, by its own events before i."""
    return depth([trace[j] for j in before(trace, i)], *trace[i][1:])


def outer_acquires(trace):
    """The positions that acquire a lock that their thread is not in."""
    return {i for i in range(len(trace)) if trace[i][0] == ACQUIRE and depth_at(trace, i) == 0}


def has_inner(trace):
    """Whether an event acquires a lock that its thread is in, or releases one without freeing it."""
    return any(depth_at(trace, i) > (e[0] == RELEASE) for i, e in enumerate(trace) if e[0] in (ACQUIRE, RELEASE))


def has_spawn(trace):
    """Whether an event spawns or joins a thread."""
    return any(kind in (SPAWN, JOIN) for kind, _, _ in trace)


def follows(trace, outer, needs, earlier, i):
    """Whether the list with i after it is a sync-preserving correct reordering, where the list is one, these are
    the outer acquires, and each position stands after those that it needs."""
    kind, _, subject = trace[i]
    if i in earlier or any(j not in earlier for j in needs[i]):
        return False
    if kind == READ and last_write(trace, earlier, subject) != last_write(trace, range(i), subject):
        return False
    if i in outer and any(j > i and j in outer and trace[j][2] == subject for j in earlier):
        return False
    return not refusal([trace[j] for j in earlier], trace[i])


def reorderings(trace):
    """All sync-preserving correct reorderings. Up to five events every list is tried; beyond, lists grow
    from the front, which loses none, since the beginning of such a reordering is one too."""
    n, outer = len(trace), outer_acquires(trace)
    needs = [ready(trace, i) + awaited(trace, i) for i in range(n)]
    if n <= 5:
        every = (list(c) for k in range(n + 1) for c in itertools.permutations(range(n), k))
        return [c for c in every if all(follows(trace, outer, needs, c[:k], i) for k, i in enumerate(c))]
    found, ends = [[]], [[]]
    while ends:
        ends = [e + [i] for e in ends for i in range(n) if follows(trace, outer, needs, e, i)]
        found += ends
    return found


def conflicts(trace):
    return [(p, q) for q, b in enumerate(trace) for p, a in enumerate(trace[:q])
            if max(a[0], b[0]) == WRITE and a[2] == b[2] and a[1] != b[1]]


def races(trace):
    def enabled(i, listed):
        return i not in listed and all(j in listed for j in ready(trace, i))
    pairs = conflicts(trace)
    sets = {frozenset(c) for c in reorderings(trace)} if pairs else set()
    return [(p, q) for p, q in pairs if any(enabled(p, s) and enabled(q, s) for s in sets)]


# What a thread may begin with: L and M acquire the first and the last lock, l and m release them, r and w touch
# a variable
OPENINGS = ["LLw", "LLlw", "LLlwl", "LLwll", "LwLlrl", "LMLw", "LMLlmw", "LMLlwlm", "LMLmwll", "MLMmlwm", "LLMwlml"]


def opening(rng, thread, locks, variables):
    kinds = {"L": ACQUIRE, "M": ACQUIRE, "l": RELEASE, "m": RELEASE, "r": READ, "w": WRITE}
    subjects = {"l": locks[0], "m": locks[-1]}
    return [(kinds[d], thread, subjects.get(d.lower(), rng.randrange(variables))) for d in rng.choice(OPENINGS)]


def openings(rng, threads, locks, variables, spawning):
    """What the first threads begin with, one after the other; with spawning, each spawns the next somewhere in it,
    and the first perhaps joins another, mostly at the end."""
    ahead = []
    for thread in range(threads):
        events = opening(rng, thread, locks, variables)
        if spawning:
            events.insert(rng.randint(0, len(events)), (SPAWN, thread, thread + 1))
        ahead += events
    if spawning and rng.random() < 0.7:
        ahead.insert(rng.choice([len(ahead)] * 4 + [0, 1]), (JOIN, 0, rng.randint(1, 2)))
    return ahead


def some_event(rng, kinds, thread, threads, variables, locks):
    kind = rng.choice(kinds)
    subjects = range(variables) if kind <= WRITE else locks if kind <= RELEASE else range(threads)
    return kind, thread, rng.choice(subjects)


def deep(rng):
    """One thread as deep in a lock as can be, perhaps trying to go deeper, or another one at its door. None of these
    events conflict, so that no reordering is looked for."""
    trace, at = [(ACQUIRE, 1, LAST_LOCK)] * DEEPEST, rng.randrange(1, DEEPEST)
    trace[at:at] = rng.choice([[], [(RELEASE, 1, LAST_LOCK), (ACQUIRE, 1, LAST_LOCK)]])
    last = rng.choice([None, (ACQUIRE, 1, LAST_LOCK), (ACQUIRE, 0, LAST_LOCK), (RELEASE, 0, LAST_LOCK)])
    if last is None:
        return trace, None
    return trace + [last], "refused %d record %d" % (refusal(trace, last), len(trace))


def tiny(rng):
    """A random trace that the trace check admits; or one whose last event it refuses, with the report."""
    if rng.random() < 0.01:
        return deep(rng)
    threads, variables = rng.choice([2, 2, 3]), rng.choice([1, 1, 2])
    locks = rng.choice([[0], [LAST_LOCK], [0, LAST_LOCK]])
    trace, thread, spawning = [], 0, rng.random() < 0.6
    length = rng.choice([rng.randint(2, 10 + 2 * spawning)] * 12 + [13])
    kinds = [READ, WRITE, WRITE, ACQUIRE, RELEASE] + [SPAWN, JOIN] * (spawning and rng.random() < 0.7)
    ahead = openings(rng, rng.choice([0, 0, 1, 2, 2]), locks, variables, spawning)
    while len(trace) < length:
        thread = rng.randrange(threads) if rng.random() < 0.4 else thread
        event = ahead.pop(0) if ahead else some_event(rng, kinds, thread, threads, variables, locks)
        refused = refusal(trace, event)
        if not refused:
            trace.append(event)
        elif rng.random() < 0.05:
            return trace + [event], "refused %d record %d" % (refused, len(trace))
    return trace, None


def tallied(which, traces):
    """Of some traces, with their racing pairs: how many traces, conflicting pairs and racing pairs there are."""
    pairs = sum(len(conflicts(trace)) for trace, _ in traces)
    return "%d traces%s, %d pairs, %d races;" % (len(traces), which, pairs, sum(len(racing) for _, racing in traces))


def main():
    reference, traces, seed = (sys.argv[1:] + ["3000", "1"][len(sys.argv) - 2:])[:3]
    traces, rng = int(traces), random.Random(seed)
    stream, cases, reports, answers, admitted = b"", b"", [], [], []
    for _ in range(traces):
        trace, refused = tiny(rng)
        dump = b"".join(struct.pack("<BBHI", *e, 7 + i) for i, e in enumerate(trace))
        stream += struct.pack("<Q", len(dump)) + dump
        racing = [] if refused else races(trace)
        lines = ["events %d" % len(trace)] + ["race %d %d sites %d %d" % (p, q, 7 + p, 7 + q) for p, q in racing]
        lines += ["pairs %d" % len(racing)]
        reports.append(refused or "\n".join(lines))
        admitted += [] if refused else [(trace, racing)]
        for pair in [] if refused else conflicts(trace):
            cases += struct.pack("<Q", len(dump)) + dump + struct.pack("<QQ", *pair)
            answers.append(pair in racing)
    said = subprocess.run([reference, "reports"], input=stream, stdout=subprocess.PIPE, check=True).stdout
    judged = subprocess.run([reference, "judges"], input=cases, stdout=subprocess.PIPE, check=True).stdout
    said, judged = said.decode().split("\n\n")[:-1], judged.split()
    differ = abs(len(said) - traces) + abs(len(judged) - len(answers))
    differ += sum(a != b for a, b in zip(said, reports))
    differ += sum(int(a) != b for a, b in zip(judged, answers))
    print("brute: %d refused; %s" % (traces - len(admitted), tallied("", admitted)), end=" ")
    spawning = [(trace, racing) for trace, racing in admitted if has_spawn(trace)]
    print(tallied(" with spawns or joins", spawning), end=" ")
    print(tallied(" with these and inner events", [s for s in spawning if has_inner(s[0])]), end=" ")
    print(tallied(" with inner events", [s for s in admitted if has_inner(s[0])]), "%d differ" % differ)
    sys.exit(differ != 0)


main()
