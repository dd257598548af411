//! Records from a file or from standard input: one, or a run of them laid end to end by their length fields.

use crate::failure::Failure;
use sirveshan::read_record;
use std::collections::VecDeque;
use std::ffi::OsStr;
use std::fs::File;
use std::io::{self, BufRead, BufReader, Read};

/// Where bytes come from, and what it is called.
pub struct Input {
    name: String,
    reader: Box<dyn BufRead>,
}

impl Input {
    /// The file of that name, or standard input for `-`.
    pub fn open(path: &OsStr) -> Result<Input, Failure> {
        if path == "-" {
            return Ok(Input {
                name: "standard input".into(),
                reader: Box::new(io::stdin().lock()),
            });
        }
        let name = path.to_string_lossy().into_owned();
        match File::open(path) {
            Ok(file) => Ok(Input { name, reader: Box::new(BufReader::new(file)) }),
            Err(error) => Err(Failure::Cannot(name, error)),
        }
    }

    /// All of it.
    pub fn whole(mut self) -> Result<Vec<u8>, Failure> {
        self.up_to(u64::MAX)
    }

    /// The next bytes, fewer at the end.
    pub fn up_to(&mut self, count: u64) -> Result<Vec<u8>, Failure> {
        let mut bytes = Vec::new();
        let read = (&mut self.reader).take(count).read_to_end(&mut bytes);
        read.map_err(|error| self.failure(error))?;
        Ok(bytes)
    }

    fn at_end(&mut self) -> Result<bool, Failure> {
        let left = self.reader.fill_buf().map(|bytes| bytes.is_empty());
        left.map_err(|error| self.failure(error))
    }

    fn failure(&self, error: io::Error) -> Failure {
        Failure::Cannot(self.name.clone(), error)
    }
}

/// One record of a run.
pub struct Piece {
    /// Counted from 1.
    pub number: usize,
    /// Whether it is the only one.
    pub alone: bool,
    pub bytes: Vec<u8>,
}

/// The records of a run, one after another. The bytes of a cut last record are its own piece, and so are those of an empty
/// input, so that each is refused as a record.
///
/// A first record whose length is not what it says of itself, with nothing after it that could be a record, is no run: then
/// its length field is wrong, and all of the input is that one record.
pub struct Run {
    input: Input,
    /// Read ahead, to tell a run from a record with a wrong length.
    waiting: VecDeque<Piece>,
    read: usize,
    ended: bool,
}

impl Run {
    pub fn open(path: &OsStr) -> Result<Run, Failure> {
        let input = Input::open(path)?;
        let mut run = Run { input, waiting: VecDeque::new(), read: 0, ended: false };
        run.read_ahead()?;
        Ok(run)
    }

    fn read_ahead(&mut self) -> Result<(), Failure> {
        let first = self.next_piece()?;
        let mut in_doubt = matches!(refused_with(&first), Some(LENGTH | SAMPLES));
        self.waiting.push_back(first);
        while in_doubt && !self.ended {
            let piece = self.next_piece()?;
            in_doubt = refused_with(&piece) == Some(LENGTH);
            self.waiting.push_back(piece);
        }
        if in_doubt {
            let bytes = self.waiting.drain(..).flat_map(|piece| piece.bytes).collect();
            self.waiting.push_back(Piece { number: 1, alone: true, bytes });
        }
        Ok(())
    }

    fn next_piece(&mut self) -> Result<Piece, Failure> {
        let mut bytes = self.input.up_to(4)?;
        if let Ok(field) = <[u8; 4]>::try_from(bytes.as_slice()) {
            bytes.append(&mut self.input.up_to(u32::from_be_bytes(field).into())?);
        }
        self.read += 1;
        self.ended = self.input.at_end()?;
        Ok(Piece { number: self.read, alone: self.read == 1 && self.ended, bytes })
    }
}

/// The refusals of a record's length: its bytes or its length field, and the count of its samples.
const LENGTH: u32 = 11;
const SAMPLES: u32 = 13;

fn refused_with(piece: &Piece) -> Option<u32> {
    read_record(&piece.bytes, &mut []).err().map(|refusal| refusal.number)
}

impl Iterator for Run {
    type Item = Result<Piece, Failure>;

    fn next(&mut self) -> Option<Self::Item> {
        if let Some(piece) = self.waiting.pop_front() {
            return Some(Ok(piece));
        }
        if self.ended {
            return None;
        }
        let piece = self.next_piece();
        self.ended |= piece.is_err();
        Some(piece)
    }
}
