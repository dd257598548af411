//! `sirveshan info`: what a record says of itself, and whether it can be used.

use crate::arguments::Arguments;
use crate::failure::Failure;
use crate::input::Input;
use crate::{output, Command};
use sirveshan::{viewer, Block, Header, Mesher, Record, Refusal, Side, RECORD_HEADER};

pub const COMMAND: Command = Command {
    name: "info",
    usage: "info RECORD|- [--plain]",
    about: "\
prints what a record says: its header, blank or not, its mesh's counts

A refused record of version 1 still has its header told, as its bytes say it; why it is refused stands
on standard error. Blank: all in-block samples, and those of finer neighbours in the faces that they
share with the block, lie on one side of the threshold, so that the mesh has no triangle.

    --plain     for programs: lines `key value` with version, n, mask, threshold, base (three), size
                (f32 as bits in hex) and blank (0 or 1); refused as the viewer's calls refuse, which
                do not compare faces (8)
",
    run,
};

fn run(mut arguments: Arguments) -> Result<(), Failure> {
    let plain = arguments.flag("--plain");
    let [path] = arguments.by_place(["RECORD"])?;
    let bytes = Input::open(&path)?.whole()?;
    if plain {
        let text = plain_text(&bytes).map_err(Failure::Refused)?;
        return output::put(text.as_bytes());
    }
    tell(&bytes)
}

fn plain_text(bytes: &[u8]) -> Result<String, Refusal> {
    let Header { block: Block { base, size, subdivisions }, mask, threshold } =
        Record::read(bytes)?.header;
    let blank = u8::from(viewer::blank(bytes)?);
    let bits = |number: f32| format!("{:08x}", number.to_bits());
    Ok(format!(
        "version {}\nn {subdivisions}\nmask {mask}\nthreshold {}\nbase {}\nsize {}\nblank {blank}\n",
        bytes[VERSION_AT],
        bits(threshold),
        base.map(bits).join(" "),
        bits(size),
    ))
}

fn tell(bytes: &[u8]) -> Result<(), Failure> {
    if let Some(header) = fields(bytes) {
        output::put(header_text(&header).as_bytes())?;
    }
    let record = Record::read(bytes).map_err(Failure::Refused)?;
    let blank = viewer::blank(bytes).map_err(Failure::Refused)?;
    let blank = if blank { "yes, its samples lie on one side of the threshold" } else { "no" };
    output::put(format!("blank         {blank}\n").as_bytes())?;
    let mut mesher = Mesher::new();
    let mesh = mesher.mesh(&record).map_err(Failure::Refused)?;
    let (vertices, triangles) = (mesh.vertices.len(), mesh.triangles.len());
    output::put(format!("mesh          {vertices} vertices, {triangles} triangles\n").as_bytes())
}

fn header_text(header: &Header) -> String {
    let Header { block: Block { base: [x, y, z], size, subdivisions }, mask, threshold } = *header;
    let sides: Vec<&str> = Side::named(mask).map(Side::name).collect();
    let sides = if sides.is_empty() { "none".to_string() } else { sides.join(", ") };
    let samples = header.centre_length().saturating_add(header.neighbours_length());
    format!(
        "version       1\n\
         subdivisions  {subdivisions}\n\
         finer sides   {sides} (mask {mask})\n\
         threshold     {threshold}\n\
         base          {x} {y} {z}\n\
         size          {size}\n\
         samples       {samples}\n"
    )
}

const VERSION_AT: usize = 4;

/// The header of a record of version 1, as it stands: nothing else is judged.
fn fields(bytes: &[u8]) -> Option<Header> {
    let [1, subdivisions, mask, words @ ..] = bytes.get(VERSION_AT..RECORD_HEADER)? else {
        return None;
    };
    let mut floats = words.chunks_exact(4).map(|word| f32::from_be_bytes(word.try_into().unwrap()));
    let mut next = || floats.next();
    let (threshold, base, size) = (next()?, [next()?, next()?, next()?], next()?);
    let block = Block { base, size, subdivisions: (*subdivisions).into() };
    Some(Header { block, mask: *mask, threshold })
}
