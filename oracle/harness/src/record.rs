//! Recorded answers: files of little-endian words that a program with fixed buffers can replay. `crates/replay/README.md`
//! describes them.

use crate::cases::Case;
use model::calls::{Leaf, LeafAnswer};
use model::words::{Parameters, PARAMETERS};
use model::Call;
use std::path::Path;

/// Kinds of records beside the leaf calls' own numbers.
pub const PUT: u32 = 32;
pub const LENGTH: u32 = 33;
pub const CALL: u32 = 34;
pub const END: u32 = 63;

/// Words of a slice in one record at most.
const CHUNK: usize = 2048;

/// The slices of the replay, and how many words each can hold.
pub const CAPACITY: [usize; 4] = [16384, 65536, 512, 8192];
const SCRATCH_CAPACITY: usize = 16384;
pub const JOB: usize = 0;
pub const RANDOMNESS: usize = 1;
pub const WITNESS: usize = 2;
pub const TRANSCRIPT: usize = 3;

/// What a call leaves in the output.
pub const UNTOUCHED: u32 = 0;
pub const ZEROS: u32 = 1;
pub const OF_TRANSCRIPT: u32 = 2;

/// Records in the order in which they are replayed.
#[derive(Default)]
struct File {
    words: Vec<u32>,
    records: u32,
}

impl File {
    fn record(&mut self, kind: u32, body: &[u32]) {
        self.words.extend([kind, body.len() as u32]);
        self.words.extend(body);
        self.records += 1;
    }

    fn write(mut self, path: &Path) -> std::io::Result<()> {
        let records = self.records;
        self.record(END, &[records]);
        let bytes: Vec<u8> = self.words.iter().flat_map(|w| w.to_le_bytes()).collect();
        println!("{}: {records} records, {} bytes", path.display(), bytes.len());
        std::fs::write(path, bytes)
    }
}

/// The words and the length of a slice as the replay has them at this point.
struct Slice {
    words: Vec<u32>,
    length: usize,
}

pub struct Recorder {
    leaves: File,
    calls: File,
    slices: [Slice; 4],
}

impl Default for Recorder {
    fn default() -> Self {
        Recorder {
            leaves: File::default(),
            calls: File::default(),
            slices: CAPACITY.map(|capacity| Slice { words: vec![0; capacity], length: 0 }),
        }
    }
}

impl Recorder {
    pub fn write(self, folder: &Path) -> std::io::Result<()> {
        self.leaves.write(&folder.join("leaves"))?;
        self.calls.write(&folder.join("calls"))
    }

    pub fn leaf(&mut self, leaf: Leaf, operands: &[u32], answer: &LeafAnswer) {
        let mut body = operands.to_vec();
        body.extend([answer.number, answer.place]);
        let zeros = answer.result.iter().rev().take_while(|&&w| w == 0).count();
        body.extend(&answer.result[..answer.result.len() - zeros]);
        self.leaves.record(leaf as u32, &body);
    }

    /// Puts words into a slice, where they differ from what is there.
    fn put(&mut self, which: usize, at: usize, words: &[u32]) {
        let slice = &mut self.slices[which];
        let mut k = 0;
        while k < words.len() {
            if slice.words[at + k] == words[k] {
                k += 1;
                continue;
            }
            // a run ends where four words in a row are as they were
            let mut end = k + 1;
            let mut same = 0;
            let mut last = end;
            while end < words.len() && same < 4 && last - k < CHUNK {
                if slice.words[at + end] == words[end] {
                    same += 1;
                } else {
                    same = 0;
                    last = end + 1;
                }
                end += 1;
            }
            let last = last.min(k + CHUNK);
            let run = &words[k..last];
            slice.words[at + k..at + last].copy_from_slice(run);
            let mut body = vec![which as u32, (at + k) as u32];
            body.extend(run);
            self.calls.record(PUT, &body);
            k = last;
        }
    }

    fn set(&mut self, which: usize, words: &[u32]) {
        self.put(which, 0, words);
        if self.slices[which].length != words.len() {
            self.slices[which].length = words.len();
            self.calls.record(LENGTH, &[which as u32, words.len() as u32]);
        }
    }

    pub fn case(&mut self, case: &Case) {
        self.set(JOB, &case.job);
        self.set(RANDOMNESS, &case.randomness);
        let third = if case.call == Call::Verify { TRANSCRIPT } else { WITNESS };
        self.set(third, &case.third);
        let answer = &case.expected.answer;
        let (left, start, length) = match &case.expected.worked {
            None => (UNTOUCHED, 0, 0),
            Some(words) if answer.number > 0 => (ZEROS, 0, words.len()),
            Some(words) => {
                // a call's output stands in the transcript where its sections do
                let counts = Parameters::read(&case.job[1..1 + PARAMETERS]).transcript_counts();
                let (first, _) = case.call.output_sections();
                let start = counts[..first].iter().map(|count| 1 + count).sum();
                self.put(TRANSCRIPT, start, words);
                (OF_TRANSCRIPT, start, words.len())
            }
        };
        let call = match case.call {
            Call::Prove => 0,
            Call::Round(m) => m as u32,
            Call::Verify => 6,
        };
        assert!(case.scratch <= SCRATCH_CAPACITY);
        let mut body = vec![call, case.scratch as u32, case.output as u32, answer.number, answer.index];
        body.extend([answer.place as u32, (answer.place >> 32) as u32]);
        for figure in [answer.first, answer.second] {
            body.extend((0..4).map(|k| (figure >> (32 * k)) as u32));
        }
        body.extend([left, start as u32, length as u32]);
        body.extend([answer.cells_left as u32, (answer.cells_left >> 32) as u32]);
        self.calls.record(CALL, &body);
    }
}
