//! Whether a slice is fit, by the proved calls' own refusals, and what a file looks like.

use labrador::section_one::{SectionOne, COUNT};
use labrador::sections::Placed;
use labrador::{expected, output_need, prove_into, verify_with, Refusal, Round, Slice, Verdict};

/// The refusal of a slice under a fit job; a job is judged alone.
pub fn refusal(slice: Slice, job: &[u32], words: &[u32]) -> Option<Refusal> {
    match slice {
        Slice::Job => output_need(words).err(),
        Slice::Randomness => verdict_refusal(verify_with(job, words, &[], &mut []), [7, 8]),
        Slice::Transcript => verdict_refusal(verify_with(job, &zeros(job), words, &mut []), [9, 10]),
        Slice::Witness => {
            let made = prove_into(job, &zeros(job), words, &mut [], &mut []);
            made.err().filter(|refusal| [11, 12].contains(&refusal.number()))
        }
    }
}

/// A refusal of these numbers: the others are of what was not handed in.
fn verdict_refusal(verdict: Verdict, numbers: [u32; 2]) -> Option<Refusal> {
    match verdict {
        Verdict::Refused(refusal) if numbers.contains(&refusal.number()) => Some(refusal),
        _ => None,
    }
}

/// Randomness of the right layout, all zero.
fn zeros(job: &[u32]) -> Vec<u32> {
    let Some(one) = SectionOne::read(job) else {
        return Vec::new();
    };
    let mut words = vec![0; Slice::Randomness.length(&one.parameters) as usize];
    for section in labrador::sections::placed(Slice::Randomness, &one.parameters) {
        words[section.count_at as usize] = section.section.count() as u32;
    }
    words
}

/// What a file looks like: a job by its first count, the others by how many of their sections' counts are right.
pub fn kind_of(words: &[u32], job: Option<&[u32]>) -> Option<Slice> {
    if words.first().is_some_and(|&count| count as usize == COUNT) {
        return Some(Slice::Job);
    }
    let job = job?;
    let right = |slice: Slice| {
        let sections = expected(slice, job, usize::MAX);
        let counts = sections.iter().take_while(|s| count_at(words, s) == Some(s.section.count()));
        let whole = sections.last().is_some_and(|s| s.end() == words.len() as u64);
        (whole, counts.count())
    };
    let others = [Slice::Randomness, Slice::Witness, Slice::Transcript];
    let best = others.into_iter().max_by_key(|slice| right(*slice))?;
    (right(best).1 > 0).then_some(best)
}

pub fn count_at(words: &[u32], section: &Placed) -> Option<u64> {
    words.get(section.count_at as usize).map(|&count| count.into())
}

/// A refusal in words, and where the refused file is fit as another slice, as which. The first slice handed in is the job.
pub fn told(refusal: &Refusal, handed: [(Slice, &[u32]); 3]) -> String {
    let number = refusal.number();
    let refused = refusal.word().filter(|_| [7, 9, 11].contains(&number)).map(|place| place.slice);
    let words = handed.iter().find(|(slice, _)| Some(*slice) == refused).map(|(_, words)| *words);
    let fit = |words: &[u32]| Slice::ALL.into_iter().find(|slice| self::refusal(*slice, handed[0].1, words).is_none());
    match words.and_then(fit) {
        Some(slice) => format!("{refusal}; the file is fit as {}", slice.name()),
        None => refusal.to_string(),
    }
}

/// A round's refusal in words, and where the randomness is that of another round, of which.
pub fn told_in_round(refusal: &Refusal, handed: [(Slice, &[u32]); 3]) -> String {
    let (job, randomness) = (handed[0].1, handed[1].1);
    let is_of = |round: &Round| refusal.number() == 7 && round.admits(job, randomness).is_ok();
    match Round::ALL.into_iter().skip(1).find(is_of) {
        Some(round) => format!("{refusal}; the file is the randomness of round {}", round.number()),
        None => told(refusal, handed),
    }
}
