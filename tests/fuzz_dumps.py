"""Makes the dumps that fuzz.py feeds: admitted traces of many shapes, and what damage makes of them.

Nothing here knows what a dump should be answered with."""
import collections, random, struct

READ, WRITE, ACQUIRE, RELEASE, SPAWN, JOIN = 1, 2, 3, 4, 5, 6
THREADS, LOCKS, DEEPEST = 16, 200, 255
MEGABYTE = 1 << 20


# Traces that are admitted


def record(kind, thread, subject, site):
    return struct.pack("<BBHI", kind, thread, subject, site)


def some_site(rng, manner, n):
    if manner == "count":
        return n
    edges = [0, 1, 9, 10, 255, 256, 65535, 65536, 2**31, 2**32 - 1]
    return rng.choice(edges) if manner == "edge" else rng.getrandbits(32)


class Shape:
    """How a made trace goes: who takes part, how often threads take turns, how much is guarded, how often a
    thread acquires a lock that it holds, and how often threads are spawned and joined."""

    def __init__(self, rng, sparse=False):
        few = rng.random() < 0.7
        self.threads = rng.sample(range(THREADS), rng.randint(1, 4) if few else rng.randint(1, THREADS))
        self.locks = rng.sample(range(LOCKS), rng.randint(1, 3) if few else rng.randint(1, LOCKS))
        many = rng.randint(200, 1024) if sparse else rng.randint(1, 40)
        self.variables = rng.sample(range(1024), rng.randint(1, 4) if few and not sparse else many)
        self.switch = rng.choice([0.05, 0.2, 0.5, 1.0])
        self.locking = rng.choice([0.0, 0.15, 0.3, 0.5, 0.8])
        self.again = rng.choice([0.0, 0.2, 0.5, 0.8])
        self.guarded = rng.choice([0.0, 0.5, 0.9])
        self.strict = rng.random() < 0.35  # (nearly) no access without a lock
        self.writing = rng.choice([0.02, 0.1]) if sparse else rng.choice([0.1, 0.3, 0.5, 1.0])
        self.sites = rng.choice(["count", "edge", "any"])
        self.spawning = rng.choice([0.0, 0.01] if sparse else [0.0, 0.03, 0.1, 0.3])
        self.joining = self.spawning * rng.choice([0.1, 0.3, 1.0])
        if self.strict:
            self.locking, self.guarded = max(self.locking, 0.3), 1.0

    def variable(self, rng, lock):
        """A variable of those that the lock guards, or any where there is no lock."""
        if lock is None or rng.random() >= self.guarded:
            return rng.choice(self.variables)
        place = self.locks.index(lock)
        return rng.choice(self.variables[place::len(self.locks)] or self.variables)


def lock_to_acquire(rng, shape, mine):
    """One of the locks that the thread holds, or any."""
    return rng.choice(mine if mine and rng.random() < shape.again else shape.locks)


class Crew:
    """The threads of a made trace: those that may have an event, and those that are still to be spawned. The others
    were joined."""

    def __init__(self, rng, shape):
        self.shape, self.running, self.waiting = shape, list(shape.threads), []
        while shape.spawning and len(self.running) > 1 and rng.random() < 0.8:
            self.waiting.append(self.running.pop())

    def deed(self, rng, thread, held):
        """A spawn or a join by the thread, the kind and the subject; or None. It is rare that a thread is joined that
        holds a lock."""
        if self.waiting and rng.random() < self.shape.spawning:
            subject = self.waiting.pop()
            self.running.append(subject)
            return SPAWN, subject
        subject = rng.choice(self.shape.threads)
        if rng.random() >= self.shape.joining or subject == thread or held[subject] and rng.random() < 0.9:
            return None
        for threads in (self.running, self.waiting):
            if subject in threads:
                threads.remove(subject)
        return JOIN, subject


def trace(rng, length, shape):
    """The records of an admitted trace: a list of eight bytes each."""
    holder, held, records, crew = {}, {t: [] for t in shape.threads}, [], Crew(rng, shape)
    thread = rng.choice(crew.running)
    while len(records) < length:
        if rng.random() < shape.switch or thread not in crew.running:
            thread = rng.choice(crew.running)
        site = some_site(rng, shape.sites, len(records))
        deed = crew.deed(rng, thread, held)
        if deed:
            records.append(record(deed[0], thread, deed[1], site))
            continue
        mine = held[thread]  # a lock stands here once for each time that it is to be released
        bare = shape.strict and not mine and rng.random() > 0.01
        if mine and rng.random() < 0.6 * shape.locking:
            lock = mine.pop(-1 if rng.random() < 0.8 else rng.randrange(len(mine)))
            if lock not in mine:
                del holder[lock]
            records.append(record(RELEASE, thread, lock, site))
        elif bare or rng.random() < 0.5 * shape.locking:
            lock = lock_to_acquire(rng, shape, mine)
            if holder.get(lock, thread) != thread or mine.count(lock) == DEEPEST:
                thread = holder[lock] if rng.random() < 0.5 else rng.choice(crew.running)
                continue
            holder[lock] = thread
            mine.append(lock)
            records.append(record(ACQUIRE, thread, lock, site))
        else:
            kind = WRITE if rng.random() < shape.writing else READ
            records.append(record(kind, thread, shape.variable(rng, mine[-1] if mine else None), site))
    return records


def valid(rng, low, high):
    return b"".join(trace(rng, rng.randint(low, high), Shape(rng)))


# The sorts of dumps. Each takes the random numbers and the capacity, and answers bytes.


def short(rng, _):
    return valid(rng, 0, 40)


def middling(rng, _):
    return valid(rng, 40, 200)


def long(rng, _):
    return valid(rng, 200, 900)


def no_bytes(_rng, _):
    return b""


def random_bytes(rng, _):
    return rng.randbytes(rng.choice([rng.randint(0, 9), rng.randint(0, 64), rng.randint(0, 2000)]))


def random_records(rng, _):
    """Records whose fields lie at their limits and just past them."""
    loose, out = rng.choice([0.002, 0.02, 0.2]), []
    for n in range(rng.randint(1, 60)):
        wild = rng.random() < loose
        kind = rng.choice([0, 1, 2, 3, 4, 5, 6, 7, 128, 255]) if wild else rng.choice([1, 2, 3])
        thread = rng.choice([0, 1, 15, 16, 17, 31, 128, 255]) if wild else rng.choice([0, 7, 15])
        locks = [64, LOCKS - 1, LOCKS, LOCKS + 1, 255 + LOCKS]
        past = [0, 1, 15, 16, 255, 256, 1023, 1024, 1025, 1023 + LOCKS, 32768, 65535] + locks
        subject = rng.choice(past) if wild else rng.choice([0, 1, 255, 256, 1022, 1023]) if kind < 3 else n
        out.append(record(kind, thread, subject, rng.getrandbits(32)))
    return b"".join(out)


def one_byte(rng, _):
    bytes_ = bytearray(valid(rng, 1, 60))
    bytes_[rng.randrange(len(bytes_))] = rng.randrange(256)
    return bytes(bytes_)


def one_bit(rng, _):
    bytes_ = bytearray(valid(rng, 1, 60))
    bytes_[rng.randrange(len(bytes_))] ^= 1 << rng.randrange(8)
    return bytes(bytes_)


def one_field(rng, _):
    """One field at or past its limit."""
    bytes_ = bytearray(valid(rng, 1, 60))
    at = 8 * rng.randrange(len(bytes_) // 8)
    what = rng.randrange(3)
    if what == 0:
        bytes_[at] = rng.choice([0, 1, 2, 3, 4, 5, 6, 7, 255])
    elif what == 1:
        bytes_[at + 1] = rng.choice([0, 14, 15, 16, 17, 255])
    else:
        edges = [0, 15, 16, 64, LOCKS - 1, LOCKS, 255 + LOCKS, 1023, 1024, 1023 + LOCKS, 65535]
        bytes_[at + 2:at + 4] = struct.pack("<H", rng.choice(edges))
    return bytes(bytes_)


def cut(rng, _):
    bytes_ = valid(rng, 1, 60)
    return bytes_[:rng.randint(0, len(bytes_))]


def inserted(rng, _):
    bytes_ = valid(rng, 0, 60)
    at = rng.randint(0, len(bytes_))
    return bytes_[:at] + rng.randbytes(rng.randint(1, 24)) + bytes_[at:]


def removed(rng, _):
    bytes_ = valid(rng, 1, 60)
    at = rng.randrange(len(bytes_))
    return bytes_[:at] + bytes_[at + rng.randint(1, 24):]


def repeated(rng, _):
    """The whole again, some records again, or some bytes again."""
    bytes_, what = valid(rng, 1, 40), rng.randrange(3)
    if what == 0:
        return bytes_ * rng.randint(2, 4)
    step = 8 if what == 1 else 1
    low, high = sorted(rng.randint(0, len(bytes_) // step) * step for _ in range(2))
    return bytes_[:high] + bytes_[low:high] * rng.randint(1, 3) + bytes_[high:]


def swapped(rng, _):
    records = trace(rng, rng.randint(2, 60), Shape(rng))
    i, j = rng.randrange(len(records)), rng.randrange(len(records))
    records[i], records[j] = records[j], records[i]
    return b"".join(records)


def unused(rng, shape):
    """A lock of which the shape knows nothing."""
    return rng.choice([n for n in range(LOCKS) if n not in shape.locks])


def strangers(rng, shape, count):
    """So many threads, which have no part in a shape with spawns and joins: they can have events at any time."""
    if not shape.spawning:
        return rng.sample(range(THREADS), count)
    shape.threads = shape.threads[:THREADS - count]
    return rng.sample([t for t in range(THREADS) if t not in shape.threads], count)


def mixed(rng, records, deeds):
    """The records with the deeds somewhere among them, in their order."""
    records, places = list(records), sorted(rng.randint(0, len(records)) for _ in deeds)
    for place, deed in reversed(list(zip(places, deeds))):
        records.insert(place, deed)
    return records


def bad_lock(rng, _):
    """An event that the trace check refuses, put somewhere into a trace, with one more lock in play."""
    shape = Shape(rng)
    shape.locks = shape.locks[:LOCKS - 1]
    one, other = strangers(rng, shape, 2)
    records, lock = trace(rng, rng.randint(0, 60), shape), unused(rng, shape)
    a, z = (lambda t: record(ACQUIRE, t, lock, 1)), (lambda t: record(RELEASE, t, lock, 2))
    twice = [a(one), a(one)]
    deeds = rng.choice([[a(one), a(other)], [z(one)], [a(one), z(other)], [a(one), z(one), z(one)],
                        [a(one), z(one), a(other), z(one)], [a(one), z(one), a(other), a(one)],
                        [*twice, a(other)], [*twice, z(one), a(other)], [*twice, z(one), z(other)],
                        [*twice, z(one), z(one), z(one)], [*twice, z(one), z(one), a(other), a(one)]])
    return b"".join(mixed(rng, records, deeds))


# What three threads do of which the rest of the trace knows nothing: r reads, a and z acquire and release a lock,
# s and j spawn and join one of them. Here a thread that was joined has an event, mostly one that is wrong in other
# ways too
ENDED = ["0j1 1r", "1r 0j1 1r", "1r 0j1 1z", "0a 0j1 1a", "1a 0j1 1a", "1a*255 0j1 1a", "0a 0s1 0j1 1z", "0j1 1s1",
         "1r 0j1 1s1", "0j1 1j1", "1r 2j1 1j1", "0r 0j1 1s0", "0j1 1s2", "0s1 2j1 1j0", "0s1 1s2 2j1 1j2",
         "0s1 1r 1a 0j1 1a", "0j1 0j1 1j0"]
# Here a thread spawns or joins itself, or spawns one that is known already
KNOWN = ["0s0", "0r 0s0", "2s0 0s0", "0j0", "0a 0j0", "2s0 0j0", "0s1 0s1", "0s1 2s1", "0s1 1r 2s1", "1r 0s1",
         "1a 0s1", "1j2 0s1", "0j1 0s1", "0j1 2s1", "1r 0j1 0s1", "0s1 1s0", "0s1 0j1 2s1", "0s1 1j1"]
# And this is admitted
ADMITTED = ["0s1", "0s1 0j1", "0s1 0j1 2j1 0j1", "0j1 0j1 0r", "1r 0j1 2j1 2r", "0s1 1s2 2r 1j2 0j1 0r",
            "0a 0a 0s1 1j2 0z 0j1 0z"]


def deeds_of(text, threads, lock):
    """The records of such a text: of each the thread, the letter, where it names one a thread, and how many times."""
    records, kinds = [], {"r": READ, "a": ACQUIRE, "z": RELEASE, "s": SPAWN, "j": JOIN}
    for word in text.split():
        word, _, times = word.partition("*")
        subject = threads[int(word[2])] if word[2:] else lock
        records += [record(kinds[word[1]], threads[int(word[0])], subject, 3)] * int(times or 1)
    return records


def bad_thread(rng, _):
    """Such a text, put somewhere into a trace, with three more threads and one more lock in play."""
    shape = Shape(rng)
    shape.locks, shape.threads = shape.locks[:LOCKS - 1], shape.threads[:THREADS - 3]
    threads = rng.sample([t for t in range(THREADS) if t not in shape.threads], 3)
    text = rng.choice(rng.choice([ENDED, KNOWN, ADMITTED]))
    records, deeds = trace(rng, rng.randint(0, 60), shape), deeds_of(text, threads, unused(rng, shape))
    return b"".join(mixed(rng, records, deeds))


def deep(rng, _):
    """A thread goes into a lock as deep as can be, perhaps out a little and in again, and perhaps deeper; or others
    try the lock then."""
    shape = Shape(rng)
    shape.locks = shape.locks[:LOCKS - 1]
    one, other = strangers(rng, shape, 2)
    records, lock = trace(rng, rng.randint(0, 60), shape), unused(rng, shape)
    a, z = (lambda t: record(ACQUIRE, t, lock, 1)), (lambda t: record(RELEASE, t, lock, 2))
    turns = rng.choice([0, 0, 1, rng.randint(1, DEEPEST)])
    deeds = [a(one)] * DEEPEST + [z(one)] * turns + [a(one)] * turns
    deeds += rng.choice([[], [], [], [z(one)] * rng.randint(1, DEEPEST), [z(one)] * DEEPEST + [a(other)],
                         [a(one)], [a(one)], [a(one)], [a(one), a(other)], [a(other)], [z(other)]])
    if rng.random() < 0.5:
        return b"".join(mixed(rng, records, deeds))
    return b"".join(records + deeds)


def brim(rng, capacity):
    """As many records as the capacity, or one less."""
    return b"".join(trace(rng, capacity - rng.randrange(2), Shape(rng, sparse=True)))


def brim_damaged(rng, capacity):
    bytes_ = bytearray(brim(rng, capacity))
    bytes_[rng.randrange(len(bytes_)) & ~7] = rng.choice([0, 5, 6, 7, 255])
    return bytes(bytes_)


def over(rng, capacity):
    """More records than the capacity, all admitted."""
    return b"".join(trace(rng, capacity + rng.choice([1, 1, 2, 300]), Shape(rng, sparse=True)))


def over_wrong(rng, capacity):
    """One record too many that is wrong in itself, which is found first; perhaps with more after it."""
    depth, shape = rng.choice([1, 2, DEEPEST, DEEPEST]), Shape(rng, sparse=True)
    shape.locks, shape.threads = shape.locks[:LOCKS - 1], [t for t in shape.threads if t not in (3, 4)] or [0]
    ended = rng.choice([[], [record(JOIN, 3, 4, 0)]])
    records, lock = trace(rng, capacity - depth - len(ended), shape), unused(rng, shape)
    again = [record(ACQUIRE, 3, lock, 0)]  # wrong in itself only in a hold that is as deep as can be
    records += again * depth + ended
    last = rng.choice([record(READ, 0, 0, 0)[:rng.randint(1, 7)], record(0, 0, 0, 0), record(READ, 16, 0, 0),
                       record(WRITE, 0, 1024, 0), record(ACQUIRE, 0, LOCKS, 0), record(ACQUIRE, 4, lock, 0),
                       record(RELEASE, 4, lock, 0), record(RELEASE, 3, lock, 0), record(READ, 4, 0, 0),
                       record(SPAWN, 3, 3, 0), record(SPAWN, 4, 4, 0), record(SPAWN, 3, 4, 0), record(JOIN, 3, 3, 0),
                       record(JOIN, 3, 4, 0), record(JOIN, 3, THREADS, 0)] + again * 6)
    tail = rng.randbytes(rng.choice([0, 8, 16, rng.randint(0, 40)])) if len(last) == 8 else b""
    return b"".join(records) + last + tail


def crowded(rng, capacity):
    """Very many races: few variables, many writes, no locks or few."""
    shape = Shape(rng)
    shape.threads, shape.writing = list(range(THREADS)), rng.choice([0.3, 1.0])
    shape.variables, shape.locking = [0, 1023], rng.choice([0.0, 0.05])
    return b"".join(trace(rng, min(capacity, rng.randint(400, 1100)), shape))


def huge(rng, _):
    """Some megabytes."""
    size, what = rng.randint(2 * MEGABYTE, 6 * MEGABYTE), rng.randrange(6)
    piece = b"".join(r for r in trace(rng, 500, Shape(rng)) if r[0] <= WRITE) or record(READ, 0, 0, 0)
    if what == 0:
        return bytes(size)
    if what == 1:
        return b"\xff" * size
    if what == 2:
        return rng.randbytes(size)
    if what == 3:
        return valid(rng, 0, 100) + rng.randbytes(size)
    if what == 4:
        return (piece * (size // len(piece) + 1))[:size]
    return (piece * (size // len(piece) + 1))[:size // 8 * 8]


# The sorts; how many of ten thousand dumps for the program, and of five thousand for the C entry, are of each
SORTS = [(no_bytes, 5, 5), (random_bytes, 700, 100), (random_records, 750, 110), (short, 1800, 1500),
         (middling, 500, 1000), (long, 45, 300), (one_byte, 1100, 300), (one_bit, 500, 200), (one_field, 1000, 250),
         (cut, 800, 200), (inserted, 500, 100), (removed, 400, 100), (repeated, 400, 100), (swapped, 400, 100),
         (bad_lock, 458, 140), (bad_thread, 388, 130), (deep, 150, 160), (brim, 12, 60), (brim_damaged, 10, 20),
         (over, 20, 40), (over_wrong, 48, 55), (crowded, 2, 20), (huge, 12, 10)]
FOR_PROGRAM, FOR_ENTRY = 1, 2


class Maker:
    """The dumps of a seed: dump I is always the same bytes."""

    def __init__(self, seed, column, capacity):
        self.seed, self.column, self.capacity = seed, column, capacity
        self.order = [row[0] for row in SORTS for _ in range(row[column])]
        random.Random("%s order %d" % (seed, column)).shuffle(self.order)

    def sort(self, i):
        return self.order[i % len(self.order)]

    def dump(self, i):
        return self.sort(i)(self.numbers("dump", i), self.capacity)

    def numbers(self, what, i):
        return random.Random("%s %d %s %d" % (self.seed, self.column, what, i))


def has_inner(dump):
    """Whether a record of an admitted dump acquires a lock that its thread is in."""
    depths = collections.Counter()
    for kind, thread, lock, _ in struct.iter_unpack("<BBHI", dump):
        if kind == ACQUIRE and depths[thread, lock] > 0:
            return True
        depths[thread, lock] += (kind == ACQUIRE) - (kind == RELEASE)
    return False


def has_spawn(dump):
    """Whether a record of an admitted dump spawns or joins a thread."""
    return any(kind in (SPAWN, JOIN) for kind in dump[::8])


def some_positions(rng, dump, capacity):
    """Two positions to ask about: which way they were chosen, p and q."""
    count = len(dump) // 8
    way = rng.choice(["likely"] * 10 + ["one variable", "any", "equal", "swapped", "at the count", "beyond", "far"])
    accesses = collections.defaultdict(list)
    for i in range(min(count, capacity)):
        if dump[8 * i] in (READ, WRITE):
            accesses[dump[8 * i + 2:8 * i + 4]].append(i)
    shared = [places for places in accesses.values() if len(places) > 1]
    for _ in range(20 if way in ("likely", "one variable") and shared else 0):
        p, q = sorted(rng.sample(rng.choice(shared), 2))
        if way == "one variable" or dump[8 * p + 1] != dump[8 * q + 1] and WRITE in (dump[8 * p], dump[8 * q]):
            return way, p, q
    p, q = sorted(rng.randrange(count + 1) for _ in range(2))
    if way == "equal":
        return way, p, p
    if way == "swapped":
        return way, q, p
    if way == "at the count":
        return (way, p, count) if rng.random() < 0.7 else (way, count, q)
    if way in ("beyond", "far"):
        out = count + rng.randint(0, 2000)
        if way == "far":  # what is left of them in 8, 16, 32 or 63 bits may be in range
            out = rng.choice([2**64 - 1, 2**64 - 2, rng.choice([256, 2**16, 2**32, 2**63]) + q])
        return way, *rng.choice([(p, out), (out, q), (out, out)])
    return "any", p, q
