//! `sirveshan sample`: one sample of a record's block with the store that it came from, or the six that a gradient reads.

use crate::arguments::Arguments;
use crate::failure::Failure;
use crate::input::Input;
use crate::{output, Command};
use sirveshan::viewer::{sample_kind, PlaceKind, Sampled};
use sirveshan::{Record, Refusal};
use std::ffi::OsStr;

pub const COMMAND: Command = Command {
    name: "sample",
    usage: "sample RECORD|- X Y Z [--gradient] [--plain]",
    about: "\
prints the sample at a grid point of the block, and which store it came from

Coordinates are 0 to n; one of the three may be -1 or n+1. A sample is in-block, or of one of the six
faces one step outside: face-0 to face-5 at x = -1, x = n+1, y = -1, y = n+1, z = -1, z = n+1.

    --gradient  the six samples that the gradient at the point is made of, one step up and one down
                along x, y and z
    --plain     for programs: the eight hex digits of each value, and its kind
",
    run,
};

/// A grid point.
type Point = [i32; 3];

/// What a gradient reads, in this order: a step's name and what it adds.
const STEPS: [(&str, Point); 6] = [
    ("x+1", [1, 0, 0]),
    ("x-1", [-1, 0, 0]),
    ("y+1", [0, 1, 0]),
    ("y-1", [0, -1, 0]),
    ("z+1", [0, 0, 1]),
    ("z-1", [0, 0, -1]),
];

/// Where each face lies.
const FACES: [&str; 6] = ["x = -1", "x = n+1", "y = -1", "y = n+1", "z = -1", "z = n+1"];

fn run(mut arguments: Arguments) -> Result<(), Failure> {
    let plain = arguments.flag("--plain");
    let gradient = arguments.flag("--gradient");
    let [path, x, y, z] = arguments.by_place(["RECORD", "X", "Y", "Z"])?;
    let point = [coordinate("X", &x)?, coordinate("Y", &y)?, coordinate("Z", &z)?];
    let bytes = Input::open(&path)?.whole()?;
    let text = match (gradient, plain) {
        (false, false) => sample_words(&bytes, point),
        (false, true) => sample_at(&bytes, point).map(plain_line),
        (true, false) => gradient_words(&bytes, point),
        (true, true) => gradient_reads(&bytes, point).map(|reads| reads.map(plain_line).concat()),
    };
    output::put(text.map_err(Failure::Refused)?.as_bytes())
}

fn coordinate(name: &str, word: &OsStr) -> Result<i32, Failure> {
    let number = word.to_str().and_then(|word| word.parse().ok());
    number.ok_or_else(|| {
        let word = word.to_string_lossy();
        Failure::Usage(format!("{name} is {word}: a whole number of 32 bits is wanted"))
    })
}

fn sample_at(bytes: &[u8], [x, y, z]: Point) -> Result<Sampled, Refusal> {
    sample_kind(bytes, x, y, z)
}

/// The six samples one step away. A step beyond all numbers leads nowhere: such a point was never sampled either.
fn gradient_reads(bytes: &[u8], point: Point) -> Result<[Sampled; 6], Refusal> {
    let mut reads = [sample_at(bytes, point)?; 6];
    for (read, (_, step)) in reads.iter_mut().zip(STEPS) {
        *read = sample_at(bytes, stepped(point, step))?;
    }
    Ok(reads)
}

fn stepped(point: Point, step: Point) -> Point {
    [0, 1, 2].map(|axis| point[axis].saturating_add(step[axis]))
}

fn plain_line(sampled: Sampled) -> String {
    format!("{:08x} {}\n", sampled.value.to_bits(), sampled.kind)
}

fn kind_words(kind: PlaceKind) -> String {
    match kind {
        PlaceKind::InBlock => kind.to_string(),
        PlaceKind::Face(side) => format!("{kind} ({})", FACES[side.number()]),
    }
}

fn sample_words(bytes: &[u8], point: Point) -> Result<String, Refusal> {
    let Sampled { value, kind } = sample_at(bytes, point)?;
    let threshold = Record::read(bytes)?.header.threshold;
    let side = if value >= threshold { "inside" } else { "outside" };
    let (bits, kind, [x, y, z]) = (value.to_bits(), kind_words(kind), point);
    Ok(format!(
        "({x}, {y}, {z}): {value}, bits {bits:08x}, {side} (threshold {threshold}), {kind}\n"
    ))
}

fn gradient_words(bytes: &[u8], point: Point) -> Result<String, Refusal> {
    let reads = gradient_reads(bytes, point)?;
    let [x, y, z] = point;
    let [dx, dy, dz] = [0, 2, 4].map(|up| reads[up].value - reads[up + 1].value);
    let mut text = format!("({x}, {y}, {z}): gradient ({dx}, {dy}, {dz})\n");
    for (read, (name, step)) in reads.iter().zip(STEPS) {
        let ([x, y, z], value, kind) = (stepped(point, step), read.value, kind_words(read.kind));
        text += &format!(
            "    {name}  ({x}, {y}, {z}): {value}, bits {:08x}, {kind}\n",
            value.to_bits()
        );
    }
    Ok(text)
}
