#!/usr/bin/env python3
"""Drives the command `sirveshan` and holds what it prints and how it ends to tools/reference.py.

    python3 bindings/rust/check_command.py COMMAND...

COMMAND is the program, with the words that run it where it needs some. Each function below whose name begins with `check_`
is a check; one that fails says what it met.
"""

import math
import os
import pty
import random
import re
import resource
import signal
import struct
import subprocess
import sys
import tempfile
from pathlib import Path

PROJECT = Path(__file__).resolve().parents[2]
sys.path.insert(0, str(PROJECT / "tools"))
import records  # noqa: E402
import reference  # noqa: E402

COMMAND = sys.argv[1:]
EXAMPLES = PROJECT / "examples"
NAN, LIMIT = 0x7FC00000, 0x49800000
DEADLINE = 120


# Running the command

def run(*words, given=b"", **more):
    return subprocess.run([*COMMAND, *map(str, words)], input=given, capture_output=True, timeout=DEADLINE, **more)


def same(what, found, wanted):
    if found != wanted:
        raise AssertionError("%s: %.300r, not %.300r" % (what, found, wanted))


def accepted(done, text):
    same("exit status", (done.returncode, done.stderr), (0, b""))
    same("output", done.stdout.decode(), text)


def refused(done, refusal):
    """One line on standard error with the numbers and some words, status 1, and no output."""
    same("exit status", done.returncode, 1)
    same("output", done.stdout, b"")
    line = done.stderr.decode()
    beginning = "refused %d %d %d %d: " % refusal
    same("refusal", line[:len(beginning)], beginning)
    same("lines", line.count("\n"), 1)
    assert re.fullmatch(r".*[a-z]{3}.*\n", line[len(beginning):]), line


def bad_usage(done):
    same("exit status", done.returncode, 2)
    same("output", done.stdout, b"")
    assert done.stderr.startswith(b"sirveshan: "), done.stderr


# Records

def noise(chance, n, mask, pick=(0.0, 1.0, -2.0, 0.5)):
    """A block with values at random over the fine grid, so that faces agree."""
    values = {}
    return records.sampled_block(lambda *point: values.setdefault(point, chance.choice(pick)), n, mask)


def sphere(n, mask, radius, middle=4.0):
    """Inside a sphere in a block of size 8."""
    return records.sampled_block(lambda *point: radius - math.dist(point, (middle,) * 3), n, mask)


def changed(record, at, value):
    return record[:at] + value + record[at + len(value):]


def with_length(record):
    return changed(record, 0, (len(record) - 4).to_bytes(4, "big"))


def f32(bits):
    return struct.pack(">I", bits)


def damaged_records():
    """Records that the reader refuses, each for one reason."""
    good = reference.record_of(records.case_a())
    finer = reference.record_of(noise(random.Random(1), 1, 0b001001))
    return [
        b"", good[:3], good[:26], with_length(good[:26]), good[:-1],
        changed(good, 0, b"\xff\xff\xff\xff"),
        changed(good, 4, b"\x02"), changed(good, 4, b"\x00"),
        changed(good, 5, b"\x00"), changed(good, 5, b"\x11"), changed(good, 5, b"\xff"),
        changed(good, 6, b"\x40"), changed(good, 6, b"\xff"),
        changed(good, 7, f32(NAN)), changed(good, 11, f32(LIMIT + 1)), changed(good, 15, f32(0xFF800000)),
        changed(good, 19, f32(NAN + 1)), changed(good, 23, f32(0)),
        changed(good, 5, b"\x02"), changed(good, 6, b"\x01"), with_length(good + b"\0"), with_length(good[:-4]),
        changed(good, 27, f32(NAN)), changed(good, 27 + 4 * 31, f32(LIMIT + 1)),
        changed(finer, len(finer) - 4, f32(0x7F800000)),
    ]


def mismatch():
    """Case A with a finer neighbour that is all outside: 8."""
    block = records.case_a()
    return reference.record_of(block._replace(mask=1, neighbours=[0] * reference.neighbours_length(1, 1)))


# Checks

def check_examples():
    for path in sorted(EXAMPLES.glob("*.record")):
        wanted = reference.mesh_text(path.read_bytes())
        accepted(run("mesh", path), wanted)
        accepted(run("mesh", "-", given=path.read_bytes()), wanted)
        assert wanted.startswith("mesh ")


def check_all_sizes():
    chance = random.Random(2)
    for n, mask in [(1, 63), (2, 0), (3, 0b101010), (5, 0b000100), (12, 0), (13, 1), (16, 0), (17, 1), (33, 0)]:
        record = reference.record_of(noise(chance, n, mask))
        accepted(run("mesh", "-", given=record), reference.mesh_text(record))


def check_largest():
    record = reference.record_of(sphere(16, 63, 4.5))
    accepted(run("mesh", "-", "--jobs=2", given=record), reference.mesh_text(record))


def check_refusals():
    met = set()
    for record in damaged_records():
        refusal = reference.parse(record)
        met.add(refusal.number)
        for words in (["mesh", "-"], ["mesh", "-", "--summary"], ["info", "-", "--plain"], ["sample", "-", 0, 0, 0]):
            refused(run(*words, given=record), refusal)
    same("refusals met", met, {1, 2, 3, 7, 11, 12, 13})


def check_face_mismatch():
    refusal = reference.accepted_mesh(mismatch())
    same("reference", refusal.number, 8)
    refused(run("mesh", "-", given=mismatch()), refusal)
    done = run("info", "-", given=mismatch())
    same("info's status", done.returncode, 1)
    assert done.stderr.startswith(b"refused 8 0 1 0: "), done.stderr
    same("info --plain's status", run("info", "-", "--plain", given=mismatch()).returncode, 0)


def check_refused_header_is_told():
    record = changed(reference.record_of(records.case_a()), 23, f32(LIMIT + 1))
    done = run("info", "-", given=record)
    same("status", done.returncode, 1)
    assert b"size          1048576.1" in done.stdout, done.stdout
    assert done.stderr.startswith(b"refused 3 3 0 0: "), done.stderr
    refused(run("info", "-", given=changed(record, 4, b"\x02")), reference.Refusal(12, 2))


def check_input_that_is_not_there():
    with tempfile.TemporaryDirectory() as folder:
        for words in (["mesh"], ["info"], ["sample"], ["sheet"]):
            rest = [0, 0, 0] if words == ["sample"] else []
            bad_usage(run(*words, Path(folder) / "none", *rest))
            bad_usage(run(*words, folder, *rest))


def check_bad_usage():
    record = EXAMPLES / "case-a.record"
    for words in ([], ["draw", record], ["--mesh"], ["mesh"], ["mesh", record, record], ["mesh", record, "--plain"],
                  ["mesh", record, "--jobs"], ["mesh", record, "--jobs", "0"], ["mesh", record, "--jobs", "many"],
                  ["mesh", record, "--jobs=257"], ["info"], ["info", record, "--jobs", 2], ["sample", record],
                  ["mesh", record, "--weld=2"], ["info", record, "--weld"],
                  ["sheet"], ["sheet", record, record], ["sheet", record, "--plain"], ["sheet", record, "--jobs", "0"],
                  ["sample", record, 0, 0], ["sample", record, 0, 0, "up"], ["sample", record, 0, 0, 2 ** 31],
                  ["sample", record, 0, 0, 0, 0]):
        bad_usage(run(*words))


def check_help_and_version():
    for words in (["--help"], ["-h"], ["help"], ["mesh", "--help"], ["stl", "--help"], ["info", "--help"], ["sample", "--help"], ["sheet", "--help"]):
        done = run(*words)
        same("status", (done.returncode, done.stderr), (0, b""))
        assert b"sirveshan" in done.stdout and re.search(rb"RECORD|RUN", done.stdout), done.stdout
    done = run("--version")
    same("status", (done.returncode, done.stderr), (0, b""))
    assert re.fullmatch(rb"sirveshan \d+\.\d+\.\d+\n", done.stdout), done.stdout


def to_full_disk(*words):
    """Standard output that takes nothing."""
    with open("/dev/full", "wb") as full:
        done = subprocess.run([*COMMAND, *map(str, words)], stdout=full, stderr=subprocess.PIPE, timeout=DEADLINE)
    same("%s: status" % (words,), done.returncode, 3)
    assert done.stderr.startswith(b"sirveshan: cannot write: "), done.stderr


def check_full_disk():
    record = EXAMPLES / "face.record"
    for words in (["mesh", record], ["mesh", record, "--summary"], ["stl", record, "-o", "-"], ["info", record], ["info", record, "--plain"],
                  ["sample", record, 0, 0, 0], ["sheet", record], ["sheet", record, "--csv"], ["--help"], ["--version"]):
        to_full_disk(*words)


def check_pipe_closed_early():
    whole = reference.record_of(noise(random.Random(3), 8, 0)) * 300
    with tempfile.NamedTemporaryFile() as file:
        file.write(whole)
        file.flush()
        for jobs in (1, 2):
            process = subprocess.Popen([*COMMAND, "mesh", file.name, "--jobs", str(jobs)], stdout=subprocess.PIPE, stderr=subprocess.PIPE)
            same("its beginning", process.stdout.read(5), b"mesh ")
            process.stdout.close()
            same("status", process.wait(DEADLINE), 3)
            same("words", process.stderr.read(), b"")
            process.stderr.close()


def run_of(chance, count):
    """Records at random, some of them damaged, with what the reference says of each."""
    bad = [record for record in damaged_records() if len(record) >= 27 and int.from_bytes(record[:4], "big") == len(record) - 4]
    bad.append(mismatch())
    for _ in range(count):
        if chance.random() < 0.1:
            yield chance.choice(bad)
        else:
            yield reference.record_of(noise(chance, chance.choice([1, 1, 1, 2]), chance.choice([0, 0, 0, 1 << chance.randrange(6)])))


def check_run_of_a_thousand():
    parts = list(run_of(random.Random(4), 1000)) + [mismatch()[:40]]
    answers = [reference.mesh_text(part) for part in parts]
    wanted, refusals = "".join(answers), [(k + 1, text.strip()) for k, text in enumerate(answers) if text.startswith("refused")]
    assert len(refusals) > 50 and refusals[-1] == (1001, "refused 11 0 0 0")
    for jobs in (2, 1, 7):
        done = run("mesh", "-", "--jobs", jobs, given=b"".join(parts))
        same("status", done.returncode, 1)
        same("answers", done.stdout.decode(), wanted)
        lines = done.stderr.decode().splitlines()
        same("refusals", [(int(re.search(r"\(record (\d+)\)$", line)[1]), line.split(":")[0]) for line in lines], refusals)


def check_run_of_damaged_bytes():
    """Bytes changed at random behind the length field, so that the run stays one."""
    chance = random.Random(9)
    parts = []
    for _ in range(400):
        record = bytearray(reference.record_of(noise(chance, chance.choice([1, 2]), chance.choice([0, 0, 1 << chance.randrange(6)]))))
        for _ in range(chance.choice([1, 2, 4])):
            record[chance.choice([chance.randrange(4, 27), chance.randrange(27, len(record))])] = chance.randrange(256)
        parts.append(bytes(record))
    parts.append(reference.record_of(records.case_a()))
    wanted = [reference.mesh_text(part) for part in parts]
    met = {int(text.split()[1]) for text in wanted if text.startswith("refused")}
    assert met >= {1, 2, 3, 7, 8, 12, 13}, met
    done = run("mesh", "-", "--jobs", 2, given=b"".join(parts))
    same("answers", done.stdout.decode(), "".join(wanted))


def check_run_without_refusal():
    parts = [reference.record_of(noise(random.Random(seed), 1, 0)) for seed in range(20)]
    accepted(run("mesh", "-", "--jobs", 2, given=b"".join(parts)), "".join(map(reference.mesh_text, parts)))


def check_length_field_too_small():
    """Not a run: the bytes after the first record can be none, so its length field is wrong."""
    for record in (reference.record_of(records.case_a()), reference.record_of(noise(random.Random(8), 3, 1)), mismatch()):
        for less in (1, 3, 4, 8, 40):
            wrong = changed(record, 0, (len(record) - 4 - less).to_bytes(4, "big"))
            refused(run("mesh", "-", given=wrong), reference.Refusal(11))
        refused(run("mesh", "-", given=changed(record, 0, bytes(4))), reference.Refusal(11))


def check_a_run_that_begins_badly():
    """A first record with a wrong count of samples does not hide those after it."""
    good = reference.record_of(records.case_a())
    bad, short = with_length(good[:-4]), bytes(4)
    done = run("mesh", "-", given=bad + short + good)
    same("status", done.returncode, 1)
    same("output", done.stdout.decode(), "refused 13 32 0 0\nrefused 11 0 0 0\n" + reference.mesh_text(good))
    same("lines", done.stderr.count(b"\n"), 2)


def check_what_follows_a_record():
    """A record with bytes after it is a run whose last record is cut."""
    good = reference.record_of(records.case_a())
    done = run("mesh", "-", given=good + b"\0")
    same("status", done.returncode, 1)
    same("output", done.stdout.decode(), reference.mesh_text(good) + "refused 11 0 0 0\n")
    assert done.stderr.startswith(b"refused 11 0 0 0: "), done.stderr


# Summaries

def figures(record):
    """Area, volume and open sides of the reference's mesh."""
    mesh = reference.accepted_mesh(record)
    at = [tuple(reference.value(bits) for bits in vertex[:3]) for vertex in mesh.vertices]
    area = volume = 0.0
    sides = {}
    for corners in mesh.triangles:
        a, b, c = (at[k] for k in corners)
        ab, ac = [q - p for p, q in zip(a, b)], [q - p for p, q in zip(a, c)]
        across = [ab[1] * ac[2] - ab[2] * ac[1], ab[2] * ac[0] - ab[0] * ac[2], ab[0] * ac[1] - ab[1] * ac[0]]
        area += math.hypot(*across) / 2
        volume += sum(p * q for p, q in zip(a, across)) / 6
        for side in ((a, b), (b, c), (c, a)):
            sides[side] = sides.get(side, 0) + 1
    opened = sum(abs(times - sides.get((q, p), 0)) for (p, q), times in sides.items() if (q, p) not in sides or p < q)
    box = [(min(k), max(k)) for k in zip(*at)] if at else []
    return mesh, area, volume, opened, box


def summary_lines(record, *words):
    done = run("mesh", "-", "--summary", *words, given=record)
    same("status", (done.returncode, done.stderr), (0, b""))
    return dict(line.split(" ", 1) for line in done.stdout.decode().splitlines())


def near(what, found, wanted):
    assert abs(float(found) - wanted) <= 1e-7 * max(1.0, abs(wanted)), "%s: %s, not %s" % (what, found, wanted)


def check_summary_of_closed_meshes():
    hollow = records.sampled_block(lambda *point: min(3.5 - math.dist(point, (4, 4, 4)), math.dist(point, (4, 4, 4)) - 1.5), 16, 0)
    cavity = records.sampled_block(lambda *point: math.dist(point, (4, 4, 4)) - 2.0, 16, 0)
    ball = sphere(16, 0, 3.2)
    for block, about in ((ball, 4 / 3 * math.pi * 3.2 ** 3), (hollow, 4 / 3 * math.pi * (3.5 ** 3 - 1.5 ** 3)), (cavity, -4 / 3 * math.pi * 8)):
        record = reference.record_of(block)
        mesh, area, volume, opened, box = figures(record)
        same("the reference's open sides", opened, 0)
        lines = summary_lines(record)
        same("counts", (lines["vertices"], lines["triangles"]), (str(len(mesh.vertices)), str(len(mesh.triangles))))
        same("reads", lines["reads"], str(mesh.reads))
        near("area", lines["area"], area)
        near("volume", lines["volume"], volume)
        assert abs(float(lines["volume"]) - about) < 0.05 * abs(about), (lines, about)
        low, high = ([float(word) for word in part.split()] for part in lines["box"].split(" to "))
        same("box", [(reference.f32(a), reference.f32(b)) for a, b in zip(low, high)], box)


def outside_but(samples):
    """A block of 4 subdivisions, all outside but for the samples given by point."""
    block = noise(random.Random(5), 4, 0, pick=(0.0,))
    centre = list(block.centre)
    for point, sample in samples.items():
        centre[reference.sample_place(4, point)] = reference.bits(sample)
    return reference.record_of(block._replace(threshold=reference.bits(0.5), centre=centre))


def check_open_at_a_low_face():
    for point in [(0, 0, 0), (0, 3, 3), (3, 0, 0), (4, 4, 4)]:
        record = outside_but({point: 1.0})
        lines = summary_lines(record)
        _, area, _, opened, _ = figures(record)
        assert opened > 0
        near("area", lines["area"], area)
        same("volume", lines["volume"], "none: the mesh is not closed, %d sides are open" % opened)


def check_closed_though_vertices_are_doubled():
    """The surface touches the low face in one point, where several vertices stand: closed by positions, not by indices."""
    record = outside_but({(1, 2, 2): 1.0, (0, 2, 2): 0.5})
    mesh, _, volume, opened, _ = figures(record)
    same("open sides", opened, 0)
    assert len({vertex[:3] for vertex in mesh.vertices}) < len(mesh.vertices)
    near("volume", summary_lines(record)["volume"], volume)


def check_closed_and_flat():
    """A sample just at the threshold: the triangles have no area."""
    lines = summary_lines(outside_but({(2, 2, 2): 0.5}))
    same("figures", (lines["triangles"], lines["area"], lines["volume"]), ("8", "0", "0"))


def check_summary_of_open_meshes():
    for path in sorted(EXAMPLES.glob("*.record")):
        _, area, _, opened, _ = figures(path.read_bytes())
        lines = summary_lines(path.read_bytes())
        assert opened > 0
        near("area", lines["area"], area)
        same("volume", lines["volume"], "none: the mesh is not closed, %d sides are open" % opened)


def check_summary_of_nothing():
    record = reference.record_of(noise(random.Random(6), 3, 0, pick=(1.0,)))
    lines = summary_lines(record)
    same("lines", lines, {"vertices": "0", "triangles": "0", "doubled": "0", "box": "none", "area": "0", "volume": "none: there is no surface", "reads": str(8 * 3 ** 3)})


def check_summaries_of_a_run():
    good = reference.record_of(records.case_a())
    done = run("mesh", "-", "--summary", given=good + mismatch() + good)
    same("status", done.returncode, 1)
    one = run("mesh", "-", "--summary", given=good).stdout
    same("output", done.stdout, b"record 1\n" + one + b"record 2\nrefused 8 0 1 0\nrecord 3\n" + one)


# Welded meshes

def doubled_records():
    """The examples, noise with and without finer sides, and a face where a surface meets all low faces."""
    chance = random.Random(12)
    blocks = [noise(chance, 4, 0), noise(chance, 3, 0b010101), noise(chance, 2, 63), sphere(5, 0, 7.0, middle=0.0), sphere(16, 0, 3.2)]
    return [path.read_bytes() for path in sorted(EXAMPLES.glob("*.record"))] + [reference.record_of(block) for block in blocks]


def check_welded():
    doubled = 0
    for record in doubled_records():
        plain, mesh = reference.accepted_mesh(record), reference.welded(reference.accepted_mesh(record))
        accepted(run("mesh", "-", "--weld", given=record), reference.welded_text(record))
        lines, wanted = summary_lines(record, "--weld"), summary_lines(record)
        same("doubled", int(lines["doubled"]), len(plain.vertices) - len(mesh.vertices))
        same("vertices", (int(lines.pop("vertices")), int(wanted.pop("vertices"))), (len(mesh.vertices), len(plain.vertices)))
        same("all else", lines, wanted)
        doubled += len(plain.vertices) - len(mesh.vertices)
    assert doubled > 100, doubled


def check_welded_run():
    parts = [*doubled_records(), mismatch(), reference.record_of(records.case_a())]
    for jobs in (1, 3):
        done = run("mesh", "-", "--weld", "--jobs", jobs, given=b"".join(parts))
        same("status", done.returncode, 1)
        same("answers", done.stdout.decode(), "".join(map(reference.welded_text, parts)))


def check_welded_stl():
    """The facets are the same."""
    parts = doubled_records()
    same("file", run("stl", "-", "-o", "-", "--weld", given=b"".join(parts)).stdout, stl_of(*parts))
    for record in parts:
        same("file", run("stl", "-", "-o", "-", "--weld", given=record).stdout, run("stl", "-", "-o", "-", given=record).stdout)


# Info and samples

def check_info():
    chance = random.Random(7)
    for n, mask in [(1, 0), (2, 63), (4, 0b010011), (16, 0)]:
        for pick in ((0.0, 1.0), (1.0,)):
            block = noise(chance, n, mask, pick)
            record = reference.record_of(block)
            wanted = "version 1\nn %d\nmask %d\nthreshold %08x\nbase %08x %08x %08x\nsize %08x\nblank %d\n" % (
                n, mask, block.threshold, *block.base, block.size, reference.viewer_blank(record))
            accepted(run("info", "-", "--plain", given=record), wanted)
            said = run("info", "-", given=record)
            same("status", (said.returncode, said.stderr), (0, b""))
            names = [("low x", "high x", "low y", "high y", "low z", "high z")[side] for side in reference.sides_named(mask)]
            assert ("finer sides   %s (mask %d)\n" % (", ".join(names) or "none", mask)).encode() in said.stdout, said.stdout
            mesh = reference.mesh_of(block)
            assert b"mesh          %d vertices, %d triangles\n" % (len(mesh.vertices), len(mesh.triangles)) in said.stdout, said.stdout
            assert (b"blank         yes" in said.stdout) == (reference.viewer_blank(record) == 1), said.stdout


def graded(n):
    """A record whose samples all differ."""
    return reference.record_of(records.sampled_block(lambda x, y, z: x - 10 * y + 100 * z, n, 1))


def check_samples():
    n = 2
    record = graded(n)
    never = sampled = 0
    for point in [(x, y, z) for x in range(-1, n + 2) for y in range(-1, n + 2) for z in (-1, 0, n, n + 1)] + [
            (-2, 0, 0), (0, n + 2, 0), (-2 ** 31, 0, 0), (0, 2 ** 31 - 1, 0)]:
        answer = reference.record_point(record, *point)
        done = run("sample", "-", *point, "--plain", given=record)
        if isinstance(answer, reference.Refusal):
            refused(done, answer)
            never += 1
        else:
            line = reference.sample_line(record, *point)
            accepted(done, line + "\n")
            said = run("sample", "-", *point, given=record)
            same("status", said.returncode, 0)
            side = "inside" if reference.value(answer) >= 0 else "outside"
            assert "bits %08x, %s" % (answer, side) in said.stdout.decode(), said.stdout
            assert ", " + line.split()[1] in said.stdout.decode(), said.stdout
            sampled += 1
    assert never > 10 and sampled > 30


def check_gradient_reads():
    """At each point of the block, and at one on a face, which has no gradient."""
    n = 2
    record = graded(n)
    for point in [(x, y, z) for x in range(n + 1) for y in range(n + 1) for z in range(n + 1)]:
        lines = [reference.sample_line(record, *step) for pair in reference.steps_around(point) for step in pair]
        accepted(run("sample", "-", *point, "--gradient", "--plain", given=record), "".join(line + "\n" for line in lines))
        said = run("sample", "-", *point, "--gradient", given=record)
        same("status", said.returncode, 0)
        kinds = [line.split(", ")[-1].split()[0] for line in said.stdout.decode().splitlines()[1:]]
        same("kinds", kinds, [line.split()[1] for line in lines])
    refused(run("sample", "-", -1, 0, 0, "--gradient", given=record), reference.Refusal(15, 1))


# The sheet

def sheet_table(given):
    """The sheet of a run that has no refused record, in columns."""
    columns = reference.Figures._fields
    lines = ["  record" + "".join("%14s" % name.replace("_", " ") for name in columns)]
    for number, line in enumerate(reference.sheet(given)):
        lines.append("%8d" % number + "".join("%14d" % figure for figure in line))
    lines.append("%8s" % "total" + "".join("%14d" % figure for figure in reference.sheet_total(given)))
    return "".join(line + "\n" for line in lines)


def check_sheet_of_good_records():
    given = b"".join(some_records() + [path.read_bytes() for path in sorted(EXAMPLES.glob("*.record"))])
    for jobs in (1, 3):
        accepted(run("sheet", "-", "--jobs", jobs, given=given), sheet_table(given))
        accepted(run("sheet", "-", "--csv", "--jobs", jobs, given=given), reference.sheet_text(given))
    with tempfile.NamedTemporaryFile() as file:
        file.write(given)
        file.flush()
        accepted(run("sheet", file.name), sheet_table(given))


def check_sheet_of_nothing():
    accepted(run("sheet", "-", given=b""), sheet_table(b""))
    accepted(run("sheet", "-", "--csv", given=b""), reference.sheet_text(b""))


def check_sheet_of_a_run_with_refused_records():
    parts = list(run_of(random.Random(12), 300)) + [bytes(4), mismatch(), mismatch()[:40]]
    given = b"".join(parts)
    lines = reference.sheet(given)
    same("lines", len(lines), len(parts))
    refusals = [(k, "refused %d %d %d %d" % line) for k, line in enumerate(lines) if isinstance(line, reference.Refusal)]
    assert {line[0] for line in lines if isinstance(line, reference.Refusal)} >= {1, 2, 3, 7, 8, 11, 12, 13}
    for jobs in (2, 1, 7):
        done = run("sheet", "-", "--csv", "--jobs", jobs, given=given)
        same("status", done.returncode, 1)
        same("sheet", done.stdout.decode(), reference.sheet_text(given))
        told = done.stderr.decode().splitlines()
        same("refusals", [(int(re.search(r"\(record (\d+)\)$", line)[1]), line.split(":")[0]) for line in told], refusals)
    done = run("sheet", "-", given=given)
    same("status", (done.returncode, done.stderr), (1, b""))
    table = done.stdout.decode().splitlines()
    same("lines of the table", len(table), len(lines) + 2)
    for k, refusal in refusals:
        assert re.fullmatch(r" *%d  %s: .*[a-z]{3}.*" % (k, refusal), table[k + 1]), table[k + 1]
    same("total", [int(word) for word in table[-1].split()[1:]], list(reference.sheet_total(given)))


def check_sheet_that_is_too_long():
    """A run one byte too long, which is a file with no data in it."""
    with tempfile.NamedTemporaryFile() as file:
        file.truncate(reference.SHEET_BYTES + 1)
        refused(run("sheet", file.name), reference.Refusal(11))
        refused(run("sheet", file.name, "--csv"), reference.Refusal(11))


def check_sheet_holds_no_run():
    """The longest run, one record of zeros, in a file that has no data after its first bytes."""
    with tempfile.NamedTemporaryFile() as file:
        file.write(struct.pack(">IBB", reference.SHEET_BYTES - 4, 1, 1))
        file.truncate(reference.SHEET_BYTES)
        done = run("sheet", file.name, preexec_fn=little_memory)
        same("status", (done.returncode, done.stderr), (1, b""))
        table = done.stdout.decode().splitlines()
        same("its line", table[1].split(":")[0].split(), ["0", "refused", "3", "3", "0", "0"])
        same("its lines", len(table), 3)


# STL files

def stl_of(*records_of_a_run):
    """The file of a run's meshes: the facets of each after those before it."""
    files = [reference.mesh_stl(reference.accepted_mesh(record)) for record in records_of_a_run]
    facets = b"".join(file[84:] for file in files)
    return bytes(80) + struct.pack("<I", len(facets) // 50) + facets


def some_records():
    """Without and with finer sides, one with no surface among them."""
    chance = random.Random(11)
    blocks = [records.case_a(), noise(chance, 3, 0), noise(chance, 2, 0b010010), noise(chance, 2, 0, pick=(1.0,)), sphere(6, 0, 3.0)]
    return [reference.record_of(block) for block in blocks]


def silent(done, status=0):
    same("exit status", (done.returncode, done.stdout, done.stderr), (status, b"", b""))


def names_in(folder):
    return sorted(os.listdir(folder))


def check_stl_files():
    with tempfile.TemporaryDirectory() as folder:
        for k, record in enumerate([path.read_bytes() for path in sorted(EXAMPLES.glob("*.record"))] + some_records()):
            file = Path(folder) / ("%d.stl" % k)
            silent(run("stl", "-", "-o", file, given=record))
            same("file", file.read_bytes(), stl_of(record))
            same("standard output", run("stl", "-", "-o", "-", given=record).stdout, stl_of(record))
        same("files", len(names_in(folder)), k + 1)


def check_stl_of_a_run():
    parts = some_records() * 40
    with tempfile.TemporaryDirectory() as folder:
        for jobs in (1, 3):
            silent(run("stl", "-", "-o", Path(folder) / "run.stl", "--force", "--jobs", jobs, given=b"".join(parts)))
            same("file", (Path(folder) / "run.stl").read_bytes(), stl_of(*parts))
        same("standard output", run("stl", "-", "-o", "-", given=b"".join(parts)).stdout, stl_of(*parts))


def check_stl_overwrites_only_when_told():
    record = EXAMPLES / "case-a.record"
    with tempfile.TemporaryDirectory() as folder:
        file, link = Path(folder) / "a.stl", Path(folder) / "link.stl"
        file.write_bytes(b"kept")
        link.symlink_to(file)
        for path in (file, link):
            bad_usage(run("stl", record, "-o", path))
            same("what was there", file.read_bytes(), b"kept")
        silent(run("stl", record, "-o", link, "--force"))
        same("through the link", (link.is_symlink(), file.read_bytes()), (True, stl_of(record.read_bytes())))
        for path in (folder, "/dev/null"):
            bad_usage(run("stl", record, "-o", path, "--force"))
        same("files", names_in(folder), ["a.stl", "link.stl"])


def check_stl_refusals():
    with tempfile.TemporaryDirectory() as folder:
        file = Path(folder) / "a.stl"
        for record in damaged_records() + [mismatch()]:
            refusal = reference.accepted_mesh(record)
            for target in (file, "-"):
                refused(run("stl", "-", "-o", target, given=record), refusal)
        same("files", names_in(folder), [])


def check_stl_of_a_run_with_refused_records():
    good, bad = some_records()[:3], mismatch()
    parts = [good[0], bad, good[1], bad, good[2]]
    lines = ["refused 8 0 1 0: side low x disagrees with its neighbour at u 1, v 0 (record %d)" % k for k in (2, 4)]
    with tempfile.TemporaryDirectory() as folder:
        file = Path(folder) / "a.stl"
        for words, files in (([], []), (["--skip-refused"], ["a.stl"])):
            done = run("stl", "-", "-o", file, *words, given=b"".join(parts))
            same("status and output", (done.returncode, done.stdout), (1, b""))
            same("words", done.stderr.decode().splitlines(), lines)
            same("files", names_in(folder), files)
        same("what is not refused", file.read_bytes(), stl_of(*good))


def limited():
    """No file may grow beyond 1,000 bytes: writing fails, as on a full disk."""
    signal.signal(signal.SIGXFSZ, signal.SIG_IGN)
    resource.setrlimit(resource.RLIMIT_FSIZE, (1000, 1000))


def not_written(done):
    same("status and output", (done.returncode, done.stdout), (3, b""))
    assert done.stderr.startswith(b"sirveshan: cannot write: "), done.stderr


def check_stl_that_cannot_be_written():
    record = EXAMPLES / "face.record"
    with tempfile.TemporaryDirectory() as folder:
        file = Path(folder) / "a.stl"
        not_written(run("stl", record, "-o", file, preexec_fn=limited))
        same("files", names_in(folder), [])
        file.write_bytes(b"kept")
        not_written(run("stl", record, "-o", file, "--force", preexec_fn=limited))
        same("files", (names_in(folder), file.read_bytes()), (["a.stl"], b"kept"))
        for path in (Path(folder) / "none" / "a.stl", file / "a.stl", "/proc/a.stl", ""):
            not_written(run("stl", record, "-o", path))


def check_stl_bad_usage():
    record = EXAMPLES / "case-a.record"
    with tempfile.TemporaryDirectory() as folder:
        file = Path(folder) / "a.stl"
        for words in ([record], ["-o", file], [record, "-o"], [record, record, "-o", file], [record, "-o", file, "--jobs", 0],
                      [record, "-o", file, "--plain"], [Path(folder) / "none", "-o", file], ["--check"], ["--check", record, "-o", file],
                      ["--check", Path(folder) / "none"], ["--check", folder]):
            bad_usage(run("stl", *words))
        same("files", names_in(folder), [])


def stl_file(*facets):
    return bytes(80) + struct.pack("<I", len(facets)) + b"".join(struct.pack("<12x9f2x", *facet) for facet in facets)


def check_stl_check():
    record = (EXAMPLES / "face.record").read_bytes()
    mesh, _, _, _, box = figures(record)
    done = run("stl", "--check", "-", given=stl_of(record))
    same("status", (done.returncode, done.stderr), (0, b""))
    lines = dict(line.split(" ", 1) for line in done.stdout.decode().splitlines())
    low, high = ([float(word) for word in part.split()] for part in lines.pop("box").split(" to "))
    same("box", [(reference.f32(a), reference.f32(b)) for a, b in zip(low, high)], box)
    same("counts", lines, {"triangles": str(len(mesh.triangles)), "degenerate": "0", "not-finite": "0"})
    told = [
        (stl_file(), "triangles 0\nbox none\ndegenerate 0\nnot-finite 0\n"),
        (stl_file([0, 0, 0, 1, 0, 0, 0, 2, 0], [1, 1, 1, 3, 3, 3, 1, 1, 1], [-0.0, 5, 5, 4, 4, 4, 0.0, 5, 5]),
         "triangles 3\nbox 0 0 0 to 4 5 5\ndegenerate 2\nnot-finite 0\n"),
        (stl_file([math.nan, 0, 0, math.nan, 0, 0, 7, 8, 9], [math.inf, 0, 0, math.inf, 0, 0, 0, 0, 0]),
         "triangles 2\nbox 0 0 0 to 7 8 9\ndegenerate 1\nnot-finite 2\n"),
        (stl_file([math.inf] * 9), "triangles 1\nbox none\ndegenerate 1\nnot-finite 1\n"),
    ]
    for file, text in told:
        accepted(run("stl", "--check", "-", given=file), text)
    exact = outside_but({(2, 2, 2): 0.5})
    assert b"\ndegenerate 8\n" in run("stl", "--check", "-", given=stl_of(exact)).stdout


def check_stl_check_refusals():
    file = stl_of((EXAMPLES / "case-a.record").read_bytes())
    for damaged in (b"", file[:83], file[:84], file[:-1], file + b"\0", changed(file, 80, b"\xff" * 4)):
        refused(run("stl", "--check", "-", given=damaged), reference.refuse_stl_file(damaged))


# Repair

def damage(chance, record, count):
    """Samples of every kind at random places of a record."""
    kinds = [NAN, 0xFFA12345, 0x7F800000, 0xFF800000, LIMIT, LIMIT + 1, 0, 1 << 31, 0x3F800000, 0xC0000000]
    for _ in range(count):
        place = chance.randrange((len(record) - reference.HEADER) // 4)
        record = changed(record, reference.HEADER + 4 * place, f32(chance.choice(kinds)))
    return record


def some_deliveries():
    chance = random.Random(21)
    blocks = [records.case_a(), noise(chance, 2, 0), noise(chance, 2, 0b100101), noise(chance, 1, 63), noise(chance, 5, 0b001000)]
    sound = [reference.record_of(block) for block in blocks]
    return sound + [damage(chance, record, count) for record in sound for count in (1, 10, 60)] + [mismatch()] + list(records.deliveries().values())


def repaired(record, filler):
    """What the reference leaves of a record, and its changes."""
    block = reference.parse_delivery(record)
    changes = reference.changes_of(block, reference.bits(filler))
    reference.apply_changes(block, changes)
    return reference.record_of(block), changes


def check_repair():
    with tempfile.TemporaryDirectory() as folder:
        for k, record in enumerate(some_deliveries()):
            for filler in (0.0, -2.5):
                file = Path(folder) / ("%d.record" % k)
                wanted, changes = repaired(record, filler)
                done = run("repair", "-", "--filler", filler, "-o", file, "--plain", "--force", given=record)
                same("status", done.returncode, 0)
                same("changes", done.stdout.decode(), reference.change_lines(changes))
                same("lines on standard error", done.stderr.count(b"\n"), 1)
                same("file", file.read_bytes(), wanted)
                accepted(run("mesh", file), reference.mesh_text(wanted))
        same("files", len(names_in(folder)), k + 1)


def check_repair_in_words():
    block = records.case_a()
    record = reference.record_of(block._replace(mask=1, neighbours=[0] * reference.neighbours_length(1, 1)))
    record = changed(changed(record, 27 + 4 * 4, f32(0xFFA12345)), 27 + 4 * (32 + 80), f32(0x7F800000))
    words = ["centre (1, 0, 0): NaN with bits ffa12345 becomes -0", "neighbour at low x (2, 2, 3): inf becomes -0",
             "neighbour at low x (2, 0, 0): 0 becomes 1"]
    with tempfile.TemporaryDirectory() as folder:
        file, again = Path(folder) / "a.record", Path(folder) / "b.record"
        done = run("repair", "-", "--filler=-0", "-o", file, given=record)
        same("status", done.returncode, 0)
        same("changes", done.stdout.decode().splitlines(), words)
        same("summary", done.stderr.decode(), "2 samples became -0, 1 fine sample took the centre's bits\n")
        done = run("repair", file, "--filler", "7", "-o", again)
        same("a second pass", (done.returncode, done.stdout), (0, b""))
        same("summary", done.stderr.decode(), "nothing to repair: the record is written as it was\n")
        same("the same record", again.read_bytes(), file.read_bytes())


def check_repair_refusals():
    with tempfile.TemporaryDirectory() as folder:
        file = Path(folder) / "a.record"
        met = set()
        for record in damaged_records():
            refusal = reference.parse_delivery(record)
            if isinstance(refusal, reference.Refusal):
                met.add(refusal.number)
                refused(run("repair", "-", "--filler", 0, "-o", file, given=record), refusal)
        same("refusals met", met, {11, 12, 1, 2, 3, 13})
        for filler in ("nan", "inf", "1048576.2", "-1e30"):
            refused(run("repair", EXAMPLES / "face.record", "--filler", filler, "-o", file), reference.Refusal(18))
        same("files", names_in(folder), [])


def check_repair_bad_usage():
    record = EXAMPLES / "case-a.record"
    with tempfile.TemporaryDirectory() as folder:
        file, there = Path(folder) / "a.record", Path(folder) / "there"
        there.write_bytes(b"kept")
        for words in ([record, "-o", file], [record, "--filler", 1], [record, "--filler", "one", "-o", file], ["--filler", 1, "-o", file],
                      [record, "--filler", 1, "-o", "-"], [record, "--filler", 1, "-o", there], [record, "--filler", "-o", file],
                      [record, record, "--filler", 1, "-o", file], [Path(folder) / "none", "--filler", 1, "-o", file]):
            bad_usage(run("repair", *words))
        not_written(run("repair", EXAMPLES / "face.record", "--filler", 1, "-o", file, preexec_fn=limited))
        damaged = Path(folder) / "damaged"
        damaged.write_bytes(changed(record.read_bytes(), reference.HEADER, f32(NAN)))
        to_full_disk("repair", damaged, "--filler", 1, "-o", file)
        same("files", (names_in(folder), there.read_bytes()), (["damaged", "there"], b"kept"))


def check_repair_whose_list_is_cut():
    """A list longer than a pipe holds, whose reader goes after some of it: no record, and that is told."""
    record = reference.record_of(records.level_block(16, 0, NAN))
    assert len(reference.change_lines(repaired(record, 0.0)[1])) > 1 << 16
    with tempfile.TemporaryDirectory() as folder:
        (Path(folder) / "damaged").write_bytes(record)
        words = ["repair", Path(folder) / "damaged", "--filler", 0, "-o", Path(folder) / "a.record", "--plain"]
        process = subprocess.Popen([*COMMAND, *map(str, words)], stdout=subprocess.PIPE, stderr=subprocess.PIPE)
        same("its beginning", process.stdout.read(4), b"0 0 ")
        process.stdout.close()
        same("status", process.wait(DEADLINE), 3)
        said = process.stderr.read().decode()
        process.stderr.close()
        assert re.fullmatch("sirveshan: cannot write: the list of changes: .*; no record is written\n", said), said
        same("files", names_in(folder), ["damaged"])


# Cutting

FACE = (EXAMPLES / "face.volume").read_bytes()
FACE_SIZES = records.VOLUME_SIZES
FACE_WORDS = [EXAMPLES / "face.volume", *FACE_SIZES]


def cut_record(n, first, threshold=0.0, base=(0.0, 0.0, 0.0), size=None):
    """The record of a block of the example's volume."""
    samples = [0] * reference.block_length(n)
    same("reference", reference.cut(FACE, FACE_SIZES, n, first, samples), len(samples))
    size = float(n) if size is None else size
    return reference.record_of(reference.Block(n, 0, reference.bits(threshold), tuple(map(reference.bits, base)), reference.bits(size), samples, []))


def cut_length(n):
    return reference.HEADER + 4 * reference.block_length(n)


def cut_volume(n, base, size):
    """Those of all its blocks, each a side on from the one before it."""
    blocks = []
    for first in reference.first_points(FACE_SIZES, n):
        at = [reference.f32(reference.f32(start) + reference.f32(size) * (k // n)) for start, k in zip(base, first)]
        blocks.append(cut_record(n, first, 0.25, at, size))
    return b"".join(blocks)


def with_bad_samples(*places):
    volume = bytearray(FACE)
    for place in places:
        volume[4 * place:4 * place + 4] = struct.pack("<I", NAN)
    return bytes(volume)


def check_cut_help():
    done = run("cut", "--help")
    same("status", (done.returncode, done.stderr), (0, b""))
    assert b"usage: sirveshan cut VOLUME" in done.stdout, done.stdout


def check_cut_of_one_block():
    with tempfile.TemporaryDirectory() as folder:
        for k, (n, first) in enumerate([(1, (0, 0, 0)), (8, (8, 0, 8)), (5, (29, 14, 21)), (64, (20, 3, 2))]):
            file = Path(folder) / ("%d.record" % k)
            silent(run("cut", *FACE_WORDS, "-n", n, "--at", *first, "--threshold", 0, "-o", file))
            same("file", file.read_bytes(), cut_record(n, first))
            words = ["--threshold", "-1.5", "--base", "-3", "1e3", "0.1", "--size=2.5", "-o", "-"]
            done = run("cut", "-", *FACE_SIZES, "-n", n, "--at", *first, *words, given=FACE)
            same("standard output", (done.returncode, done.stderr), (0, b""))
            same("standard output", done.stdout, cut_record(n, first, -1.5, (-3.0, 1e3, 0.1), 2.5))
        same("files", len(names_in(folder)), k + 1)


def check_cut_of_all_blocks():
    with tempfile.TemporaryDirectory() as folder:
        file = Path(folder) / "run.records"
        for n, jobs in ((8, 1), (8, 3), (16, 2), (3, 1)):
            words = ["-n", n, "--all", "--threshold", 0.25, "--base", 116.5, 40.3, -13.5, "--size", 4.1]
            wanted = cut_volume(n, (116.5, 40.3, -13.5), 4.1)
            silent(run("cut", *FACE_WORDS, *words, "--jobs", jobs, "-o", file, "--force"))
            same("file", file.read_bytes(), wanted)
            same("standard output", run("cut", *FACE_WORDS, *words, "-o", "-").stdout, wanted)
        same("a mesh for each", run("mesh", file).stdout.count(b"mesh "), len(reference.first_points(FACE_SIZES, 3)))


def check_cut_refusals():
    places = {(2, 0, 0): 2, (29, 14, 21): 30 * 15 * 22 - 1}
    with tempfile.TemporaryDirectory() as folder:
        file = Path(folder) / "a.record"
        for sizes, n, first, volume, number in [
                (FACE_SIZES, 0, (99, 0, 0), b"", 1), (FACE_SIZES, 65, (0, 0, 0), FACE, 1), ((0, 15, 22), 8, (0, 0, 0), b"", 20),
                ((30, 1025, 22), 8, (0, 0, 0), FACE, 20), (FACE_SIZES, 8, (99, 0, 0), FACE[:-1], 21), ((30, 15, 21), 8, (99, 0, 0), FACE, 21),
                (FACE_SIZES, 8, (0, 15, 0), FACE, 22), (FACE_SIZES, 8, (0, 0, 2 ** 63), FACE, 22),
                (FACE_SIZES, 8, (0, 0, 0), with_bad_samples(*places.values()), 7)]:
            refusal = reference.cut(volume, sizes, n, first, [])
            same("reference", refusal.number, number)
            for target in (file, "-"):
                refused(run("cut", "-", *sizes, "-n", n, "--at", *first, "--threshold", 0, "-o", target, given=volume), refusal)
            if number in (1, 20, 21):
                refused(run("cut", "-", *sizes, "-n", n, "--all", "--threshold", 0, "-o", file, given=volume), refusal)
        for words in (["--threshold", "nan"], ["--threshold", 0, "--size", 0], ["--threshold", 0, "--base", 0, "inf", 0]):
            done = run("cut", *FACE_WORDS, "-n", 2, "--at", 0, 0, 0, *words, "-o", file)
            same("status", (done.returncode, done.stderr[:10]), (1, b"refused 3 "))
        same("files", names_in(folder), [])


def check_cut_with_refused_blocks():
    volume = with_bad_samples(2, 30 * 15 * 22 - 1)
    firsts = reference.first_points(FACE_SIZES, 8)
    answers = {first: reference.cut(volume, FACE_SIZES, 8, first, [0] * 2000) for first in firsts}
    bad = [first for first in firsts if isinstance(answers[first], reference.Refusal)]
    same("reference", bad, [(0, 0, 0), (24, 8, 16)])
    lines = ["refused 7 %d 0 0: sample %d is not finite or beyond 1,048,576 (the block at %d %d %d)" % (*[answers[first].first] * 2, *first) for first in bad]
    with tempfile.TemporaryDirectory() as folder:
        file = Path(folder) / "a.records"
        words = ["cut", "-", *FACE_SIZES, "-n", 8, "--all", "--threshold", 0, "--size", 0.5, "-o"]
        told_of(run(*words, file, given=volume), b"", lines)
        same("files", names_in(folder), [])
        told_of(run(*words, "-", given=volume), b"", lines)
        told_of(run(*words, file, "--skip-refused", given=volume), b"", lines)
        same("what is not refused", run("mesh", file).stdout.count(b"mesh "), len(firsts) - len(bad))
        told_of(run(*words, "-", "--skip-refused", given=volume), file.read_bytes(), lines)
        last = with_bad_samples(30 * 15 * 22 - 1)
        told_of(run(*words, "-", given=last), run(*words, "-", given=FACE).stdout[:-cut_length(8)], lines[1:])


def told_of(done, output, lines):
    """Blocks were refused, a line each; what else there was is written."""
    same("status and words", (done.returncode, done.stderr.decode().splitlines()), (1, lines))
    same("output", done.stdout, output)


def check_cut_with_no_block_left():
    nan = struct.pack("<I", NAN) * (4 * 3 * 3)
    lines = ["refused 7 %d 0 0: sample %d is not finite or beyond 1,048,576 (the block at %d 0 0)" % (k, k, k) for k in (0, 2)]
    with tempfile.TemporaryDirectory() as folder:
        for target in (Path(folder) / "a.records", "-"):
            words = ["cut", "-", 4, 3, 3, "-n", 2, "--all", "--threshold", 0, "-o", target]
            told_of(run(*words, given=nan), b"", lines)
            told_of(run(*words, "--skip-refused", given=nan), b"", [*lines, "sirveshan: every block is refused: nothing is written"])
        same("files", names_in(folder), [])


def check_cut_bad_usage():
    with tempfile.TemporaryDirectory() as folder:
        file = Path(folder) / "a.record"
        good = [*FACE_WORDS, "-n", 8, "--at", 0, 0, 0, "--threshold", 0, "-o", file]
        bad_usage(run("cut", Path(folder) / "none", *good[1:]))
        for without in (["-n", 8], ["--at", 0, 0, 0], ["--threshold", 0], ["-o", file], FACE_WORDS[3:]):
            at = good.index(without[0])
            bad_usage(run("cut", *good[:at], *good[at + len(without):]))
        for more in (["--all"], ["--at", 0, 0], ["--base", 0, 0], ["--size", "big"], ["--jobs", 0], ["-n", -1], ["more"], ["--plain"], ["--jobs", 2],
                     ["--skip-refused"]):
            bad_usage(run("cut", *more, *good))
        for words in (["--at", 0, -1, 0], ["--at", 0, 0, 0.5]):
            bad_usage(run("cut", *FACE_WORDS, "-n", 8, *words, "--threshold", 0, "-o", file))
        same("files", names_in(folder), [])


def little_memory():
    """Room for no volume, but for a block."""
    resource.setrlimit(resource.RLIMIT_DATA, (1 << 26, 1 << 26))


def zeros(path, length):
    with open(path, "wb") as file:
        file.truncate(length)


def check_cut_holds_no_volume():
    with tempfile.TemporaryDirectory() as folder:
        volume, blocks = Path(folder) / "wide.volume", Path(folder) / "all.records"
        zeros(volume, 4 << 30)
        done = run("cut", volume, 1024, 1024, 1024, "-n", 16, "--at", 1023, 512, 1020, "--threshold", 1, "-o", "-", preexec_fn=little_memory)
        same("status", (done.returncode, done.stderr), (0, b""))
        same("its length", len(done.stdout), cut_length(16))
        refused(run("cut", volume, 1024, 1024, 1023, "-n", 16, "--all", "--threshold", 1, "-o", "-"), reference.Refusal(21))
        zeros(volume, 4 * 257 * 257 * 321)
        silent(run("cut", volume, 257, 257, 321, "-n", 64, "--all", "--threshold", 1, "--jobs", 2, "-o", blocks, preexec_fn=little_memory))
        same("their length", blocks.stat().st_size, 4 * 4 * 5 * cut_length(64))


def check_cut_reads_no_more_than_the_volume():
    for sizes, number in (((9, 9, 9), 21), ((9, 0, 9), 20), ((1025, 2, 2), 20)):
        words = ["cut", "/dev/zero", *sizes, "-n", 4, "--all", "--threshold", 0, "-o", "-"]
        refused(run(*words, preexec_fn=little_memory), reference.Refusal(number))


# Progress

def on_a_terminal(*words, given):
    """The command with a terminal as its standard error, and what it said there."""
    ours, theirs = pty.openpty()
    done = subprocess.run([*COMMAND, *words], input=given, stdout=subprocess.PIPE, stderr=theirs, timeout=DEADLINE)
    os.close(theirs)
    said = b""
    while True:
        try:
            part = os.read(ours, 65536)
        except OSError:
            break
        if not part:
            break
        said += part
    os.close(ours)
    same("status", done.returncode, 0)
    return done.stdout, said


def check_progress_on_a_terminal():
    record = reference.record_of(records.case_a())
    text, file = reference.mesh_text(record).encode(), stl_of(record)
    for count, shown in ((1, False), (500, True)):
        listed, said_of_listing = on_a_terminal("mesh", "-", given=record * count)
        written, said_of_file = on_a_terminal("stl", "-", "-o", "-", given=record * count)
        same("listing", listed, text * count)
        same("file", written, file[:80] + struct.pack("<I", count) + file[84:] * count)
        sheet, said_of_sheet = on_a_terminal("sheet", "-", given=record * count)
        same("sheet", sheet.decode(), sheet_table(record * count))
        for said in (said_of_listing, said_of_file, said_of_sheet):
            same("progress for %d" % count, b" records" in said, shown)
            if shown:
                assert said.endswith(b"\r\x1b[K"), said[-40:]
    words = ["cut", *map(str, FACE_WORDS), "-n", "1", "--all", "--threshold", "0.25", "--base", "0", "0", "0", "--size", "1", "-o", "-"]
    blocks, said = on_a_terminal(*words, given=b"")
    same("blocks", blocks, cut_volume(1, (0.0, 0.0, 0.0), 1.0))
    assert b" records" in said and said.endswith(b"\r\x1b[K"), said[-40:]


def main():
    checks = [(name, check) for name, check in globals().items() if name.startswith("check_")]
    failed = 0
    for name, check in checks:
        try:
            check()
        except (AssertionError, subprocess.TimeoutExpired) as error:
            failed += 1
            print("%s: %s" % (name, str(error) or "wrong"))
    print("%d checks passed, %d failed" % (len(checks) - failed, failed))
    return failed != 0


if __name__ == "__main__":
    if not COMMAND:
        sys.exit(__doc__)
    sys.exit(main())
