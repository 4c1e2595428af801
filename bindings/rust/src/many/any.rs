//! Any number of transcripts, in groups of at most eight, on several threads.

use std::convert::Infallible;
use std::num::NonZeroUsize;
use std::ops::Range;

use crate::needs::scratch_need;
use crate::refusal::Refusal;
use crate::verdict::Verdict;

use super::group::Group;
use super::threads::in_threads;
use super::{Sent, MOST};

/// The groups of so many transcripts: of eight on one thread, of fewer on several, so that on up to eight threads no more than eight transcripts
/// are held at a time.
fn groups(count: usize, threads: usize) -> Vec<Range<usize>> {
    let size = count.div_ceil(threads).min(MOST / threads).max(1);
    (0..count).step_by(size).map(|first| first..count.min(first + size)).collect()
}

/// Judges any number of transcripts as they are read, in groups of at most eight, each by one call, on so many threads. `read` appends randomness
/// and transcript of an index, so that nothing is copied; `told` is handed the verdict with the words, which are dropped after
/// it. What `read` cannot read is given back in its place, and the others are judged. Refused as a whole where there is none (35), and by
/// the job's refusals.
///
/// The verdicts do not depend on the number of threads: the calls are pure.
///
/// ```
/// use labrador::{load, prove, verify_each, Parameters};
///
/// let desk = load(&Parameters::SMALL, 1)?;
/// let drawn = |index: usize| load(&Parameters::SMALL, 100 + index as u32).map(|load| load.randomness);
/// let read = |index: usize, randomness: &mut Vec<u32>, transcript: &mut Vec<u32>| {
///     let made = drawn(index)?;
///     transcript.extend(prove(&desk.job, &made, &desk.witness)?);
///     randomness.extend(made);
///     Ok::<(), labrador::Refusal>(())
/// };
/// let threads = std::thread::available_parallelism()?;
/// let numbers = verify_each(&desk.job, 9, threads, read, |_, verdict, _| verdict.number())?;
/// assert!(numbers.iter().all(|number| *number == Ok(0)));
/// # Ok::<(), Box<dyn std::error::Error>>(())
/// ```
pub fn verify_each<T: Send, E: Send>(
    job: &[u32],
    count: usize,
    threads: NonZeroUsize,
    read: impl Fn(usize, &mut Vec<u32>, &mut Vec<u32>) -> Result<(), E> + Sync,
    told: impl Fn(usize, Verdict, Sent<'_>) -> T + Sync,
) -> Result<Vec<Result<T, E>>, Refusal> {
    if count == 0 {
        return Err(Refusal::TranscriptCount { count: 0 });
    }
    scratch_need(job)?;
    let groups = groups(count, threads.get());
    let judged = in_threads(groups.len(), threads.get(), |k| {
        let mut group = Group::new(job, groups[k].len())?;
        let added: Vec<Result<(), E>> = groups[k].clone().map(|m| group.add(|r, t| read(m, r, t))).collect();
        let mut verdicts = group.verdicts()?.into_iter().enumerate();
        let each = added.into_iter().zip(groups[k].clone()).map(|(added, index)| {
            added.map(|()| {
                let (m, verdict) = verdicts.next().expect("a verdict of each that was added");
                told(index, verdict, group.sent(m))
            })
        });
        Ok(each.collect::<Vec<_>>())
    });
    let judged: Vec<Vec<Result<T, E>>> = judged.into_iter().collect::<Result<_, Refusal>>()?;
    Ok(judged.into_iter().flatten().collect())
}

/// The verdicts on any number of transcripts that are at hand, by [`verify_each`].
///
/// ```
/// use std::num::NonZeroUsize;
///
/// use labrador::{load, prove, verify_all, Parameters, Sent};
///
/// let desk = load(&Parameters::SMALL, 1)?;
/// let transcript = prove(&desk.job, &desk.randomness, &desk.witness)?;
/// let sent = Sent { randomness: &desk.randomness, transcript: &transcript };
/// let verdicts = verify_all(&desk.job, &[sent; 10], NonZeroUsize::new(2).unwrap())?;
/// assert!(verdicts.len() == 10 && verdicts.iter().all(|verdict| verdict.is_accepted()));
/// # Ok::<(), labrador::Refusal>(())
/// ```
pub fn verify_all(job: &[u32], sent: &[Sent<'_>], threads: NonZeroUsize) -> Result<Vec<Verdict>, Refusal> {
    let read = |index: usize, randomness: &mut Vec<u32>, transcript: &mut Vec<u32>| {
        sent[index].append::<Infallible>(randomness, transcript)
    };
    let verdicts = verify_each(job, sent.len(), threads, read, |_, verdict, _| verdict)?;
    Ok(verdicts.into_iter().map(|Ok(verdict)| verdict).collect())
}
