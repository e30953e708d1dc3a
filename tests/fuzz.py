#!/usr/bin/env python3
"""Feeds made dumps to the program racereport and to the C entry lenogneiss_judge, and compares what they
answer with tests/reference.c, byte for byte.

    fuzz.py [--dumps N] [--cases N] [--seed S] [--racereport PATH] [--archive PATH] [--work DIR]
            [--timeout SECONDS] [--valgrind K]

The last line is 'fuzz: N dumps, M entry cases, 0 differ' and the exit status 0 where nothing differs. Where
something does, the dump stays in the work folder with both answers, and the status is 1."""
import argparse, collections, os, struct, subprocess, sys, threading, time

sys.dont_write_bytecode = True  # so that nothing but the work folder is written to
import fuzz_dumps
from fuzz_dumps import FOR_ENTRY, FOR_PROGRAM, Maker

HERE = os.path.dirname(os.path.abspath(__file__))
ROOT = os.path.dirname(HERE)
HOST, BOARD = 4096, 1024  # how many events racereport and the C entry take


class Harness:
    """The folder to work in, the reference, and the count of differences."""

    def __init__(self, options):
        self.options, self.differ = options, 0
        self.work = os.path.abspath(options.work)
        os.makedirs(self.work, exist_ok=True)
        self.reference = self.build("reference", [os.path.join(HERE, "reference.c")])

    def build(self, name, words):
        path = os.path.join(self.work, name)
        flags = ["-std=c99", "-O2", "-Wall", "-Wextra", "-Werror", "-I", os.path.join(ROOT, "include")]
        if subprocess.run(["cc", *flags, "-o", path, *words]).returncode != 0:
            sys.exit("fuzz: %s is not built" % name)
        return path

    def keep(self, name, files, why):
        """Notes a difference, and keeps what it was about."""
        self.differ += 1
        for ending, content in files.items():
            with open(os.path.join(self.work, name + ending), "wb") as file:
                file.write(content)
        print("differs: %s: %s; kept in %s" % (name, why, self.work), flush=True)

    def ask_reference(self, *words, stream):
        return subprocess.run([self.reference, *words], input=stream, stdout=subprocess.PIPE, check=True).stdout

    def run(self, words, bytes_, pieces=()):
        """Runs a program on the bytes: its status (-9 where it had to be ended), what it printed, what it
        printed on stderr, and the seconds. The input is a file, or with pieces a pipe, filled up to one of
        these places after the other."""
        paths = [os.path.join(self.work, name) for name in ("in", "out", "err")]
        with open(paths[0], "wb") as file:
            file.write(bytes_)
        begin = time.monotonic()
        with open(paths[0], "rb") as in_, open(paths[1], "wb") as out, open(paths[2], "wb") as err:
            child = subprocess.Popen(words, stdin=subprocess.PIPE if pieces else in_, stdout=out, stderr=err)
            end = threading.Timer(self.options.timeout, child.kill)
            end.start()
            if pieces:
                self.feed(child, bytes_, pieces)
            status = child.wait()
            end.cancel()
        seconds = time.monotonic() - begin
        printed = [open(path, "rb").read() for path in paths[1:]]
        return status, printed[0], printed[1], seconds

    @staticmethod
    def feed(child, bytes_, pieces):
        try:
            with child.stdin as pipe:
                for low, high in zip([0, *pieces], [*pieces, len(bytes_)]):
                    pipe.write(bytes_[low:high])
                    pipe.flush()
                    time.sleep(0.001)
        except BrokenPipeError:
            pass  # it need not read on after a refusal


def framed(dump):
    return struct.pack("<Q", len(dump)) + dump


def batches(total, size):
    for low in range(0, total, size):
        yield range(low, min(low + size, total))


# What makes an admitted dump a harder one
BESIDES = ["", " beside inner acquires", " beside spawns or joins", " beside inner acquires and spawns or joins"]


def beside(dump):
    return BESIDES[fuzz_dumps.has_inner(dump) + 2 * fuzz_dumps.has_spawn(dump)]


# The program


def kind_of(report, dump):
    """A word for the tally: the refusal, or whether there are races, and what else there is."""
    first = report.split(b"\n", 1)[0].decode()
    if first.startswith("refused"):
        return " ".join(first.split()[:2])
    found = "no race" if report.endswith(b"\npairs 0\n") else "races"
    return found + beside(dump)


def some_pieces(rng, length):
    """Where to cut the input for the pipe: nowhere for most dumps."""
    if rng.random() > 0.1:
        return []
    return sorted(rng.randint(0, length) for _ in range(rng.randint(1, 8)))


def fuzz_program(harness):
    """Each dump to racereport: the text of the reference, status 0, nothing on stderr."""
    options, maker = harness.options, Maker(harness.options.seed, FOR_PROGRAM, HOST)
    sorts, reports, fed = collections.Counter(), collections.Counter(), collections.Counter()
    longest = (0.0, "")
    for batch in batches(options.dumps, 100):
        dumps = [maker.dump(i) for i in batch]
        texts = harness.ask_reference("reports", stream=b"".join(map(framed, dumps))).split(b"\n\n")
        for i, dump, text in zip(batch, dumps, texts):
            right, sort = text + b"\n", maker.sort(i).__name__
            pieces = some_pieces(maker.numbers("pieces", i), len(dump))
            status, out, err, seconds = harness.run([options.racereport], dump, pieces)
            sorts[sort] += 1
            reports[kind_of(right, dump)] += 1
            fed["a pipe in pieces" if pieces else "a file"] += 1
            longest = max(longest, (seconds, "dump %d, %s, %d bytes" % (i, sort, len(dump))))
            if status != 0 or err or out != right:
                why = "status %d" % status if status else "stderr" if err else "text"
                harness.keep("dump-%d" % i, {".bin": dump, ".program": out + err, ".reference": right}, why)
            if i % 100 == 0 and harness.ask_reference(stream=dump) != right:
                harness.keep("dump-%d" % i, {".bin": dump, ".reference": right}, "the reference on its own")
    show("dumps of each sort", sorts)
    show("reports", reports)
    show("fed through", fed)
    print("longest run: %.2f s, %s" % longest, flush=True)
    wanted = ["refused %d" % n for n in [*range(1, 8), 13, 14, 15]]
    wanted += [found + more for found in ("races", "no race") for more in BESIDES]
    return missing(reports, wanted, options.dumps)


# The C entry


def entry_cases(seed, batch):
    """Cases, three to a dump: the sort, the way in which the positions were chosen, the dump, p and q."""
    maker, cases, last = Maker(seed, FOR_ENTRY, BOARD), [], (None, b"")
    for i in batch:
        if last[0] != i // 3:
            last = (i // 3, maker.dump(i // 3))
        way, p, q = fuzz_dumps.some_positions(maker.numbers("positions", i), last[1], BOARD)
        cases.append((maker.sort(i // 3).__name__, way, last[1], p, q))
    return cases


def compare_answers(harness, words, batch, cases):
    """Asks the C entry about the cases, all in one process; returns what the reference says, and the seconds."""
    stream = b"".join(framed(dump) + struct.pack("<QQ", p, q) for _, _, dump, p, q in cases)
    right = harness.ask_reference("judges", stream=stream).split()
    status, out, err, seconds = harness.run(words, stream)
    answers = out.split()
    for i, (_, _, dump, p, q), one, other in zip(batch, cases, answers, right):
        if one != other:
            note = b"p %d q %d: answer %s, reference %s" % (p, q, one, other)
            harness.keep("case-%d" % i, {".bin": dump, ".txt": note + b"\n"}, note.decode())
    if status != 0 or err or len(answers) != len(cases):  # the first case without an answer ended the process
        name = "cases-%d-%d" % (batch[0], batch[-1])
        why = "status %d, %d answers to %d cases" % (status, len(answers), len(cases))
        harness.keep(name, {".stream": stream, ".program": out + err}, why)
    return [int(n) for n in right], seconds


def answer_of(number, dump):
    """A word for the tally: the answer, and to a verdict what else there is."""
    return "answer %d" % number + (beside(dump) if number < 2 else "")


def fuzz_entry(harness, host):
    options, longest = harness.options, (0.0, "")
    sorts, ways, answers = collections.Counter(), collections.Counter(), collections.Counter()
    for batch in batches(options.cases, 150):
        cases = entry_cases(options.seed, batch)
        right, seconds = compare_answers(harness, [host], batch, cases)
        longest = max(longest, (seconds, "%d cases from case %d on" % (len(batch), batch[0])))
        sorts.update(case[0] for case in cases)
        ways.update(case[1] for case in cases)
        answers.update(answer_of(n, case[2]) for n, case in zip(right, cases))
    show("cases of each sort", sorts)
    show("positions", ways)
    show("answers", answers)
    print("longest run: %.2f s, %s" % longest, flush=True)
    wanted = ["answer %d" % n for n in [*range(101, 111), 113, 114, 115]]
    return missing(answers, wanted + ["answer %d" % n + more for n in (0, 1) for more in BESIDES], options.cases)


# Both under valgrind


def fuzz_valgrind(harness, host):
    """The same comparison on small dumps of all sorts, with memory watched: no error, and nothing lost."""
    options, before = harness.options, harness.differ
    maker = Maker("%s valgrind" % options.seed, FOR_PROGRAM, HOST)
    words = ["valgrind", "-q", "--error-exitcode=97", "--leak-check=full", "--errors-for-leak-kinds=definite"]
    done, i = 0, 0
    while done < options.valgrind:
        dump = maker.dump(i)
        if len(dump) <= 8 * 60:
            done += 1
            right = harness.ask_reference(stream=dump)
            status, out, err, _ = harness.run([*words, options.racereport], dump)
            if status != 0 or err or out != right:
                files = {".bin": dump, ".program": out + err, ".reference": right}
                harness.keep("valgrind-%d" % i, files, "status %d" % status)
        i += 1
    batch = range(options.valgrind)
    compare_answers(harness, [*words, host, "heap"], batch, entry_cases("%s valgrind" % options.seed, batch))
    print("valgrind: %d dumps, %d entry cases, %d with errors" % (done, len(batch), harness.differ - before))


def show(title, counts):
    print(title + ": " + ", ".join("%s %d" % (name.replace("_", " "), counts[name]) for name in sorted(counts)))


def missing(counts, wanted, total):
    """Whether a run of a thousand and more did not meet all that it should."""
    lacking = [name for name in wanted if total >= 1000 and not counts[name]]
    if lacking:
        print("not reached: " + ", ".join(lacking))
    return bool(lacking)


def main():
    parser = argparse.ArgumentParser(description="compares racereport and lenogneiss_judge with the reference")
    parser.add_argument("--dumps", type=int, default=10000, help="how many dumps for racereport")
    parser.add_argument("--cases", type=int, default=15000, help="how many cases for the C entry")
    parser.add_argument("--seed", default="1")
    parser.add_argument("--racereport", default=os.path.join(ROOT, "crates/racereport/out/racereport"))
    parser.add_argument("--archive", default=os.path.join(ROOT, "crates/host/out/libhost.a"))
    parser.add_argument("--work", default=os.path.join(ROOT, "target/fuzz"))
    parser.add_argument("--timeout", type=float, default=300.0, help="seconds that one run may take")
    parser.add_argument("--valgrind", type=int, default=0, metavar="K", help="then K dumps and cases under valgrind")
    options = parser.parse_args()
    harness, lacking, host = Harness(options), False, None
    if options.cases or options.valgrind:
        host = harness.build("fuzz_host", [os.path.join(HERE, "fuzz_host.c"), options.archive])
    if options.dumps:
        lacking |= fuzz_program(harness)
    if options.cases:
        lacking |= fuzz_entry(harness, host)
    if options.valgrind:
        fuzz_valgrind(harness, host)
    print("fuzz: %d dumps, %d entry cases, %d differ" % (options.dumps, options.cases, harness.differ))
    sys.exit(1 if harness.differ or lacking else 0)


if __name__ == "__main__":
    main()
