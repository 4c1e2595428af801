//! Jobs made by the exported call, and its own time.

use crate::kernels::Kernel;
use harness::instances::Instance;
use model::refusals::output_need;
use model::words::{split, Parameters};
use model::Call;
use std::hint::black_box;

/// The twelve words of section one that a load takes.
pub fn twelve(p: &Parameters) -> [u32; 12] {
    p.words()[..12].try_into().expect("twelve words")
}

/// A load of these parameters by the library, into buffers of just the lengths needed.
fn made(p: &Parameters, seed: u32) -> [Vec<u32>; 3] {
    let words = twelve(p);
    let (answer, lengths) = library::load::needs(words);
    assert!(answer.is_fine());
    let [mut job, mut witness, mut randomness] = lengths.map(|length| vec![0; length as usize]);
    assert!(library::load::load(words, seed, [&mut job, &mut witness, &mut randomness]).is_fine());
    [job, witness, randomness]
}

/// An instance that the call makes; bounds other than the largest are put in after.
pub fn instance(p: Parameters, seed: u32) -> Instance {
    let [job, witness, randomness] = made(&p, seed);
    Instance {
        parameters: p,
        job: split(&job)[1..].to_vec(),
        randomness: split(&randomness),
        witness: split(&witness).remove(0),
    }
}

/// A load, against our own prove of it: the ratio is to stay below 1.
pub fn against_prove(p: Parameters) -> Kernel {
    let words = twelve(&p);
    let [mut job, mut witness, mut randomness] = made(&p, 1);
    let (given, random, secret) = (job.clone(), randomness.clone(), witness.clone());
    let mut scratch = vec![0; p.scratch_need()];
    let mut output = vec![0; output_need(&p, Call::Prove)];
    Kernel {
        calls: 1,
        rounds: 3,
        ours: Box::new(move || {
            let buffers = [&mut job[..], &mut witness, &mut randomness];
            assert!(library::load::load(black_box(words), 1, buffers).is_fine());
        }),
        prepare: Box::new(|| {}),
        theirs: Box::new(move || {
            let handed = library::Handed {
                job: &given,
                randomness: &random,
                third: black_box(&secret),
                scratch: &mut scratch,
                output: &mut output,
            };
            assert!(library::whole(Call::Prove, handed).is_fine());
        }),
    }
}
