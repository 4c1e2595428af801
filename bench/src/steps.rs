//! A call against itself with one more, or one fewer, of something: what a step costs.

use crate::kernels::{parameters, rounds, Kernel};
use crate::loads;
use model::refusals::output_need;
use model::words::Parameters;
use model::Call;
use std::hint::black_box;

/// The call with so many rows of psi, against itself with another number.
pub fn aggregations(call: Call, number: usize, other: usize) -> Kernel {
    let p = |aggregations| Parameters { aggregations, ..parameters(16, 4) };
    against(call, p(number), p(other))
}

/// The call with so many ring constraints, against itself with another number.
pub fn constraints(call: Call, number: usize, other: usize) -> Kernel {
    let p = |ring| Parameters { ring, ..parameters(16, 4) };
    against(call, p(number), p(other))
}

fn against(call: Call, p: Parameters, other: Parameters) -> Kernel {
    let rounds = rounds(p.n, p.r);
    Kernel { calls: 1, rounds, ours: made(call, p), prepare: Box::new(|| {}), theirs: made(call, other) }
}

/// The call on a load of these parameters.
fn made(call: Call, p: Parameters) -> Box<dyn FnMut()> {
    let instance = loads::instance(p, 1);
    let (job, randomness, witness) = (instance.job_words(), instance.randomness_words(), instance.witness_words());
    let mut scratch = vec![0; p.scratch_need()];
    let mut output = vec![0; output_need(&p, Call::Prove)];
    let mut run = move |call: Call, third: &[u32], output: &mut [u32]| {
        let handed = library::Handed { job: &job, randomness: &randomness, third, scratch: &mut scratch, output };
        assert!(library::whole(call, handed).is_fine());
    };
    let third = match call {
        Call::Verify => {
            run(Call::Prove, &witness, &mut output);
            output.clone()
        }
        _ => witness,
    };
    Box::new(move || run(call, black_box(&third), &mut output))
}
