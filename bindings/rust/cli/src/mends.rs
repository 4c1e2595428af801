//! What alone would mend a failed check 22, entry by entry of b0, in words and for machines.

use labrador::section_one::SectionOne;
use labrador::sections::words_of;
use labrador::{mistyped, Mistyped, Refusal, Slice, Zq};

use crate::json::Json;

/// What is to be said beside the list.
pub const WARNING: &str =
    "a mended constant is another claim: the randomness was drawn before it was made, and no other \
                           check is judged here; the store states it in a job of its own and proves that anew";

/// Adding `added` to entry `index` of b0, which is `before`, makes it `after`, with which check 22 passes.
pub struct Mend {
    pub index: u32,
    pub added: Zq,
    pub before: Zq,
    pub after: Zq,
}

/// The list of a failed check 22 in its order: the smallest size first, of equal sizes lowered constants, then lower indexes.
pub fn mends(job: &[u32], randomness: &[u32], transcript: &[u32]) -> Result<Vec<Mend>, Refusal> {
    let found = mistyped(job, randomness, transcript)?;
    let p = SectionOne::read(job).expect("the job is fit").parameters;
    let b_0 = words_of(Slice::Job, &p, "b0", job);
    let mend = |Mistyped { index, number }: Mistyped| {
        let before = Zq(b_0[index as usize]);
        Ok(Mend { index, added: number, before, after: before.add(number)? })
    };
    found.into_iter().map(mend).collect()
}

fn centred(number: Zq) -> i64 {
    number.centre().expect("a number modulo Q")
}

/// `-5 (word 4294967290)`
pub fn both(number: Zq) -> String {
    format!("{} (word {})", centred(number), number.0)
}

impl Mend {
    /// `b0[1]: -5 (word 4294967290) added to 65 (word 65) gives 60 (word 60)`
    pub fn told(&self) -> String {
        let [added, before, after] = [self.added, self.before, self.after].map(both);
        format!("b0[{}]: {added} added to {before} gives {after}", self.index)
    }

    /// For machines.
    pub fn json(&self) -> Json {
        let word = |number: Zq| Json::Number(number.0.into());
        Json::Object(vec![
            ("index", Json::Number(self.index.into())),
            ("added", Json::Signed(centred(self.added))),
            ("added_word", word(self.added)),
            ("b0", word(self.before)),
            ("centred", Json::Signed(centred(self.before))),
            ("mended_b0", word(self.after)),
            ("mended_centred", Json::Signed(centred(self.after))),
        ])
    }
}
