//! Writes the tables of tools/tables as the arrays that the mesher reads.

use std::fmt::Write;
use std::path::{Path, PathBuf};
use std::{env, fs};

/// A row a line; an empty line is an empty row.
fn rows(tables: &Path, name: &str) -> Vec<Vec<u16>> {
    let path = tables.join(name);
    println!("cargo:rerun-if-changed={}", path.display());
    let text = fs::read_to_string(&path).unwrap_or_else(|e| panic!("{}: {e}", path.display()));
    text.lines().map(|line| line.split_whitespace().map(number).collect()).collect()
}

fn number(word: &str) -> u16 {
    match word.strip_prefix("0x") {
        Some(digits) => u16::from_str_radix(digits, 16),
        None => word.parse(),
    }
    .unwrap_or_else(|e| panic!("{word}: {e}"))
}

fn padded(row: &[u16], length: usize) -> Vec<u16> {
    let mut row = row.to_vec();
    assert!(row.len() <= length);
    row.resize(length, 0);
    row
}

/// One kind of cell: `cases` classes and rows of codes, and the classes' data.
fn module(tables: &Path, kind: &str, cases: usize, corners: usize) -> String {
    let classes = rows(tables, &format!("{kind}_class.txt")).concat();
    let cells = rows(tables, &format!("{kind}_cell.txt"));
    let codes = rows(tables, &format!("{kind}_vertex.txt"));
    assert_eq!((classes.len(), codes.len()), (cases, cases));
    for (class, row) in classes.iter().zip(&codes) {
        let counts = cells[(class & 0x7F) as usize][0];
        assert_eq!(row.len(), (counts >> 4) as usize);
    }

    let upper = kind.to_uppercase();
    let mut text = format!("pub mod {kind}_cell_data {{\n    use super::CellData;\n");
    writeln!(text, "    pub const {upper}_CELL_CLASS: [u8; {cases}] = {classes:?};").unwrap();
    let count = cells.len();
    writeln!(text, "    pub const {upper}_CELL_DATA: [CellData<{corners}>; {count}] = [").unwrap();
    for cell in &cells {
        let (counts, triangles) = (cell[0], &cell[1..]);
        assert_eq!(triangles.len(), 3 * (counts & 0x0F) as usize);
        let triangles = padded(triangles, corners);
        writeln!(text, "        CellData {{ counts: {counts}, vertex_index: {triangles:?} }},")
            .unwrap();
    }
    text.push_str("    ];\n");
    let codes: Vec<_> = codes.iter().map(|row| padded(row, 12)).collect();
    writeln!(text, "    pub const {upper}_VERTEX_DATA: [[u16; 12]; {cases}] = {codes:?};").unwrap();
    text.push_str("}\n");
    text
}

fn main() {
    let tables = Path::new(&env::var("CARGO_MANIFEST_DIR").unwrap()).join("../../../tools/tables");
    let text = module(&tables, "regular", 256, 15) + &module(&tables, "transition", 512, 36);
    fs::write(PathBuf::from(env::var("OUT_DIR").unwrap()).join("tables.rs"), text).unwrap();
}
