//! Eight transcripts for one job in one call, against our own eight calls.

use crate::kernels::{rounds, Kernel};
use crate::loads;
use model::refusals::output_need;
use model::words::Parameters;
use model::Call;
use std::hint::black_box;
use std::rc::Rc;

const COUNT: usize = 8;

/// A job with eight transcripts of one witness end to end, each with randomness of its own.
struct Desk {
    job: Vec<u32>,
    randomness: Vec<u32>,
    transcripts: Vec<u32>,
}

fn desk(p: &Parameters) -> Desk {
    let first = loads::instance(*p, 1);
    let (job, witness) = (first.job_words(), first.witness_words());
    let mut scratch = vec![0; p.scratch_need()];
    let mut output = vec![0; output_need(p, Call::Prove)];
    let (mut randomness, mut transcripts) = (vec![], vec![]);
    for seed in 1..=COUNT as u32 {
        let drawn = loads::instance(*p, seed).randomness_words();
        let handed = library::Handed {
            job: &job,
            randomness: &drawn,
            third: &witness,
            scratch: &mut scratch,
            output: &mut output,
        };
        assert!(library::whole(Call::Prove, handed).is_fine());
        randomness.extend(drawn);
        transcripts.extend_from_slice(&output);
    }
    Desk { job, randomness, transcripts }
}

/// All eight accepted: the ratio is to stay below 1.
pub fn against_single(p: Parameters) -> Kernel {
    let desk = Rc::new(desk(&p));
    let same = Rc::clone(&desk);
    let mut scratch = vec![0; COUNT * p.scratch_need()];
    let mut single = vec![0; p.scratch_need()];
    Kernel {
        calls: 1,
        rounds: rounds(p.n, p.r),
        ours: Box::new(move || {
            let Desk { job, randomness, transcripts } = &*desk;
            let told = library::many::verify_many(job, COUNT as u32, randomness, black_box(transcripts), &mut scratch);
            assert!(told.number == 0 && told.verdicts.iter().all(|verdict| verdict.is_fine()));
        }),
        prepare: Box::new(|| {}),
        theirs: Box::new(move || {
            let Desk { job, randomness, transcripts } = &*same;
            let parts = |words: &[u32]| words.len() / COUNT;
            let sent = randomness.chunks_exact(parts(randomness)).zip(transcripts.chunks_exact(parts(transcripts)));
            for (randomness, transcript) in sent {
                let handed = library::Handed {
                    job,
                    randomness,
                    third: black_box(transcript),
                    scratch: &mut single,
                    output: &mut [],
                };
                assert!(library::whole(Call::Verify, handed).is_fine());
            }
        }),
    }
}
