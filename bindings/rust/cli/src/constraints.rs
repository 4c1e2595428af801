//! What each constraint of a job states, in words and for machines.

use labrador::review::Kind;
use labrador::statement::{stated, Stated, Touched};

use crate::json::Json;

/// So many terms of a total are told; `labrador statement --from` prints all.
const TERMS: usize = 16;

/// The constraints of a fit job; of another none.
pub fn constraints(job: &[u32]) -> Vec<Stated> {
    stated(job).unwrap_or_default()
}

/// `constant-term constraint 1`
pub fn name(stated: &Stated) -> String {
    format!("{} {}", stated.kind, stated.index)
}

/// `total 1500 = s0`, or why it is no total.
pub fn total(stated: &Stated) -> String {
    stated.total.as_ref().map_or_else(ToString::to_string, |total| total.cut(TERMS))
}

/// `b0 is 4294967290, centred -5`; of a ring constraint the constant coefficient of b, and how many others are not 0.
pub fn right(stated: &Stated) -> String {
    let (word, centred) = (stated.right[0], stated.centred()[0]);
    match stated.kind {
        Kind::ConstantTerm => format!("b0 is {word}, centred {centred}"),
        Kind::Ring => {
            let others = stated.right[1..].iter().filter(|word| **word != 0).count();
            format!("coefficient 0 of b is {word}, centred {centred}; {others} of the other 63 are not 0")
        }
    }
}

/// `3 terms and 1 product`
fn counts(touched: &Touched) -> String {
    let some = |count: u64, one: &str| match count {
        0 => None,
        1 => Some(format!("1 {one}")),
        count => Some(format!("{count} {one}s")),
    };
    let both = [some(touched.terms, "term"), some(touched.products, "product")];
    both.into_iter().flatten().collect::<Vec<_>>().join(" and ")
}

/// Vectors that follow each other and have the same counts.
fn run(run: &[Touched]) -> String {
    let counts = counts(&run[0]);
    let (first, last) = (run[0].vector, run[run.len() - 1].vector);
    match run.len() {
        1 => format!("s{first} with {counts}"),
        2 => format!("s{first} and s{last} with {counts} each"),
        _ => format!("s{first} to s{last} with {counts} each"),
    }
}

/// `s0 with 1 term, s1 and s2 with 32 terms each`
pub fn touched(stated: &Stated) -> String {
    let alike = |a: &Touched, b: &Touched| *b == Touched { vector: a.vector + 1, ..*a };
    let runs: Vec<String> = stated.touched.chunk_by(alike).map(run).collect();
    match runs.is_empty() {
        true => "no vector".to_string(),
        false => runs.join(", "),
    }
}

/// For machines: the right side's words and centred numbers, and the vectors.
pub fn json(stated: &Stated) -> Json {
    let words: Vec<Json> = stated.right.iter().map(|&word| Json::Number(word.into())).collect();
    let centred: Vec<Json> = stated.centred().into_iter().map(Json::Signed).collect();
    let (name, right, centred) = match stated.kind {
        Kind::ConstantTerm => ("b0", words[0].clone(), centred[0].clone()),
        Kind::Ring => ("b", Json::List(words), Json::List(centred)),
    };
    let vector = |touched: &Touched| {
        let Touched { vector, terms, products } = *touched;
        let counts = [("vector", u64::from(vector)), ("terms", terms), ("products", products)];
        Json::Object(counts.map(|(name, count)| (name, Json::Number(count))).to_vec())
    };
    Json::Object(vec![
        ("kind", Json::text(stated.kind)),
        ("index", Json::Number(stated.index)),
        (name, right),
        ("centred", centred),
        ("vectors", Json::List(stated.touched.iter().map(vector).collect())),
        ("states", Json::text(total(stated))),
    ])
}
