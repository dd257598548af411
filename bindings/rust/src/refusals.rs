//! What each refusal says in words. Written by tools/refusals.py from docs/refusals.tsv: change
//! the words there.

const SIDE: [&str; 6] = ["low x", "high x", "low y", "high y", "low z", "high z"];
const MEASURE: [&str; 5] = ["base x", "base y", "base z", "size", "threshold"];

fn name<'a>(names: &[&'a str], number: usize) -> &'a str {
    names.get(number).copied().unwrap_or("unknown")
}

/// The words of a refusal with its three numbers; none for a number that no refusal has.
#[rustfmt::skip]
pub(crate) fn words(number: u32, [first, second, third]: [usize; 3]) -> Option<String> {
    Some(match number {
        1 => format!("{first} subdivisions: not 1 to 64"),
        2 => format!("mask {first}: above 63"),
        3 => format!("the {} is out of range", name(&MEASURE, first)),
        4 => format!("the centre needs {first} samples"),
        5 => format!("the neighbour at side {} is not wholly there", name(&SIDE, first)),
        6 => format!("the neighbours need {first} samples and no more"),
        7 => format!("sample {first} is not finite or beyond 1,048,576"),
        8 => format!("side {} disagrees with its neighbour at u {second}, v {third}", name(&SIDE, first)),
        9 => format!("the index store needs {first} places"),
        10 => format!("room is wanted for {first} vertices and {second} triangles"),
        11 => "the record is under 27 bytes or cut, its length field is wrong, or the run is above 1,073,741,824 bytes".to_string(),
        12 => format!("record version {first}: not 1"),
        13 => format!("the record needs {first} samples"),
        14 => format!("the lent buffer needs {first} places"),
        15 => format!("that grid point was never sampled: coordinates outside: {first}"),
        16 => format!("STL: the file needs {first} bytes (0: more triangles than 32 bits hold)"),
        17 => format!("triangle {first} names no vertex"),
        18 => "the filler is not finite or beyond 1,048,576".to_string(),
        19 => format!("the list of changes needs {first} entries"),
        20 => "a size of the volume is 0 or above 1,024".to_string(),
        21 => "the volume's bytes are not four times its sizes' product".to_string(),
        22 => "the first point is not in the volume".to_string(),
        23 => format!("the list of edges needs {first} places"),
        26 => format!("layer {first} of the summary differs in value from one made afresh"),
        _ => return None,
    })
}
