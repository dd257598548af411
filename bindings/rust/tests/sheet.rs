//! The sheet of a run: its lines against what our own extraction makes, every kind of line, the cut end and the total.

use sirveshan::{sheet, sheet_line, sheet_total, Figures, Mesher, Record, Refusal};
use std::{fs, path::Path};

fn example(name: &str) -> Vec<u8> {
    let folder = Path::new(env!("CARGO_MANIFEST_DIR")).join("../../examples");
    fs::read(folder.join(name)).unwrap()
}

fn changed(name: &str, at: usize, byte: u8) -> Vec<u8> {
    let mut bytes = example(name);
    bytes[at] = byte;
    bytes
}

fn refused(number: u32, values: [usize; 3]) -> Result<Figures, Refusal> {
    Err(Refusal { number, values })
}

const CORNER: Figures = Figures { inside: 1, edges: [1, 1, 1], vertices: 3, triangles: 1 };

#[test]
fn figures_are_what_extraction_makes() {
    let mut mesher = Mesher::new();
    for name in ["case-a.record", "face.record", "ledge.record"] {
        let bytes = example(name);
        let figures = sheet_total(&bytes).unwrap();
        let mesh = mesher.mesh(&Record::read(&bytes).unwrap()).unwrap();
        assert_eq!(figures.vertices, mesh.vertices.len() as u64, "{name}");
        assert_eq!(figures.triangles, mesh.triangles.len() as u64, "{name}");
    }
}

#[test]
fn every_kind_of_line() {
    let parts = [
        example("case-a.record"),
        changed("case-a.record", 4, 2),
        vec![0, 0, 0, 2, 9, 9],
        changed("case-a.record", 5, 0),
        example("case-a.record"),
        example("case-a.record")[..100].to_vec(),
    ];
    let wanted = [
        Ok(CORNER),
        refused(12, [2, 0, 0]),
        refused(11, [0, 0, 0]),
        refused(1, [0, 0, 0]),
        Ok(CORNER),
        refused(11, [0, 0, 0]),
    ];
    let run = parts.concat();
    let lines: Vec<_> = sheet(&run).unwrap().collect();
    assert_eq!(lines.len(), parts.len());
    let mut at = 0;
    for ((line, part), figures) in lines.iter().zip(&parts).zip(wanted) {
        assert_eq!(line.bytes, at..at + part.len());
        assert_eq!(line.figures, figures);
        at += part.len();
    }
    let mut total = CORNER;
    total += CORNER;
    assert_eq!(sheet_total(&run), Ok(total));
}

#[test]
fn ends_where_the_run_ends() {
    let run = example("case-a.record");
    for at in [run.len(), run.len() + 1, usize::MAX] {
        assert_eq!(sheet_line(&run, at), Ok(None));
    }
    assert_eq!(sheet(&[]).unwrap().count(), 0);
    assert_eq!(sheet_total(&[]), Ok(Figures::default()));
    for cut in [1, 3, 4, 154] {
        let line = sheet_line(&run[..cut], 0).unwrap().unwrap();
        assert_eq!((line.bytes, line.figures), (0..cut, refused(11, [0, 0, 0])));
    }
}
