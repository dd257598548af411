//! Our mesher, as the program `compare/ours/run` that answers calls.

use oracle::record::Block;
use std::io::{self, BufReader, BufWriter, Read, Write};
use std::path::Path;
use std::process::{Child, ChildStdin, ChildStdout, Command, Stdio};

/// What stands in a lent buffer before the call, and must still stand beyond what is written: as an
/// f32 a signalling NaN, which no arithmetic leaves as it is.
pub const MARK: u32 = 0x7fa5_a5a5;

pub struct Ours {
    input: BufWriter<ChildStdin>,
    output: BufReader<ChildStdout>,
    _program: Child,
}

/// The answer's number, its three numbers, and the lent buffers after the call.
pub struct Answer {
    pub numbers: [u32; 4],
    pub store: Vec<u32>,
    pub vertices: Vec<u32>,
    pub triangles: Vec<u32>,
}

/// The lengths of the three lent buffers.
pub struct Room {
    pub store: usize,
    pub vertices: usize,
    pub triangles: usize,
}

impl Ours {
    /// Builds the program and starts it. What is missing it says itself, on standard error.
    pub fn start() -> io::Result<Ours> {
        let run = Path::new(env!("CARGO_MANIFEST_DIR")).join("../ours/run");
        let built = Command::new(&run).arg("--build").status()?;
        if let Some(status @ 1..) = built.code() {
            std::process::exit(status);
        }
        let mut program = Command::new(run).stdin(Stdio::piped()).stdout(Stdio::piped()).spawn()?;
        Ok(Ours {
            input: BufWriter::new(program.stdin.take().expect("a piped input")),
            output: BufReader::new(program.stdout.take().expect("a piped output")),
            _program: program,
        })
    }

    fn words(&mut self, count: usize) -> io::Result<Vec<u32>> {
        let mut bytes = vec![0; 4 * count];
        self.output
            .read_exact(&mut bytes)
            .map_err(|_| io::Error::other("our mesher ended before its answer"))?;
        Ok(bytes.chunks_exact(4).map(|word| u32::from_le_bytes(word.try_into().unwrap())).collect())
    }

    /// One call.
    pub fn extract(&mut self, block: &Block, room: &Room) -> io::Result<Answer> {
        let [x, y, z] = block.base.map(f32::to_bits);
        let lengths = [block.centre.len(), block.neighbours.len()];
        let head = [block.n as u32, block.mask.into(), block.threshold.to_bits(), x, y, z];
        let head = head.into_iter().chain([block.size.to_bits()]);
        let lengths = lengths.into_iter().chain([room.store, room.vertices, room.triangles]);
        let samples = block.centre.iter().chain(&block.neighbours).map(|sample| sample.to_bits());
        for word in head.chain(lengths.map(|length| length as u32)).chain(samples) {
            self.input.write_all(&word.to_le_bytes())?;
        }
        self.input.flush()?;
        Ok(Answer {
            numbers: self.words(4)?.try_into().expect("four words"),
            store: self.words(room.store)?,
            vertices: self.words(room.vertices)?,
            triangles: self.words(room.triangles)?,
        })
    }
}
