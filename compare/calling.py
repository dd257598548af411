"""Our mesher as a running program (compare/ours/run), for the comparisons that are written in Python."""

import random
import struct
import subprocess
import sys
from pathlib import Path

HERE = Path(__file__).resolve().parent
sys.path.insert(0, str(HERE.parent / "tools"))

# What every place of a lent buffer holds before the call: as an f32 a signalling NaN, which no arithmetic leaves as it is.
MARK = 0x7FA5A5A5


def missing(what):
    """Ends the comparison for want of a tool, with the status that tools/check-all counts as skipped."""
    print(what, file=sys.stderr)
    sys.exit(77)


class Program:
    """One of ours/, built and then running, so that two of them do not build at once; one that cannot be built or that ends early ends the
    comparison with a plain line."""

    def __init__(self, name):
        run = HERE / "ours" / "run"
        built = subprocess.run([run, "--build", name])
        if built.returncode:
            sys.exit(built.returncode)
        self.process = subprocess.Popen([run, "--built", name], stdin=subprocess.PIPE, stdout=subprocess.PIPE)

    def ask(self, call, length):
        """The bytes of its answer to the bytes of a call."""
        try:
            self.process.stdin.write(call)
            self.process.stdin.flush()
            answer = self.process.stdout.read(length)
        except BrokenPipeError:
            answer = b""
        if len(answer) != length:
            sys.exit("our program ended before its answer (status %s)" % self.process.wait())
        return answer


class Ours(Program):
    """Our mesher: it answers calls of extraction."""

    def __init__(self):
        super().__init__("answers")

    def call(self, head, lengths, centre, neighbours):
        """The answer's four numbers, and all places of the three buffers, of the lengths given (store, vertices, triangles)."""
        words = [*head, len(centre), len(neighbours), *lengths, *centre, *neighbours]
        places = 4 + sum(lengths)
        numbers = struct.unpack("<%dI" % places, self.ask(struct.pack("<%dI" % len(words), *words), 4 * places))
        return numbers[:4], numbers[4:]


def seeds(words, usage):
    """COUNT [FIRST] as a range of seeds."""
    if not 1 <= len(words) <= 2 or not all(word.isdecimal() for word in words):
        sys.exit(usage)
    count, first = int(words[0]), int(words[1]) if len(words) > 1 else 0
    return range(first, first + count)


def in_turn(all_seeds):
    """Each seed, and after it how far the run has come: on a terminal now and then, elsewhere a line for each tenth."""
    count, terminal = len(all_seeds), sys.stderr.isatty()
    for done, seed in enumerate(all_seeds, 1):
        yield seed
        if terminal and (done % 50 == 0 or done == count):
            end = "\n" if done == count else "\r"
            print("%d of %d" % (done, count), end=end, file=sys.stderr, flush=True)
        elif not terminal and done * 10 // count > (done - 1) * 10 // count:
            print("%d of %d" % (done, count), file=sys.stderr, flush=True)


def answers(all_seeds, make, ours, fault):
    """Our answer to what each seed makes; the first that has a fault ends the comparison."""
    for seed in in_turn(all_seeds):
        given = make(random.Random(seed))
        answer = ours.answer(given)
        wrong = fault(given, answer)
        if wrong:
            sys.exit("seed %d: %s" % (seed, wrong))
        yield answer


def tally(met):
    """How often each number was met, the least number first."""
    return ", ".join("%d: %d" % pair for pair in sorted(met.items()))
