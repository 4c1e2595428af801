//! Section one of a job, its parameters and bounds. Which words it has is said here alone.

use crate::number::Q;

/// A parameter: a word of section one that has limits.
#[derive(Clone, Copy, Debug)]
pub struct Parameter {
    pub name: &'static str,
    pub least: u32,
    pub greatest: u32,
    pub meaning: &'static str,
}

const fn parameter(name: &'static str, least: u32, greatest: u32, meaning: &'static str) -> Parameter {
    Parameter { name, least, greatest, meaning }
}

/// The parameters in their order; the first is the job's word 1.
pub const PARAMETERS: [Parameter; 12] = [
    parameter("n", 1, 64, "elements of a witness vector"),
    parameter("r", 1, 16, "witness vectors"),
    parameter("kappa", 1, 16, "rows of A"),
    parameter("kappa_1", 1, 16, "rows of B and of C, elements of u1"),
    parameter("kappa_2", 1, 16, "rows of D, elements of u2"),
    parameter("K", 0, 64, "ring constraints"),
    parameter("l", 0, 64, "constant-term constraints"),
    parameter("log_q", 16, 32, "bits of the modulus: L is at least 128 divided by this, rounded up"),
    parameter("b", 2, Q - 1, "base of the digits"),
    parameter("t_1", 1, 32, "digits of a cell of t and of h"),
    parameter("t_2", 1, 32, "digits of a cell of g"),
    parameter("L", 1, 32, "aggregated equations, elements of b''"),
];

/// A bound: a number of three words, the least first.
#[derive(Clone, Copy, Debug)]
pub struct Bound {
    pub name: &'static str,
    pub meaning: &'static str,
}

/// The bounds in their order, after the parameters.
pub const BOUNDS: [Bound; 6] = [
    Bound { name: "beta_sq", meaning: "the norm of p is at most 128 times this" },
    Bound { name: "beta_prime_sq", meaning: "greatest norm of z's two parts and the digits of t, g and h together" },
    Bound { name: "bound_A", meaning: "greatest norm of a witness vector" },
    Bound { name: "bound_B", meaning: "greatest norm of the digits of t" },
    Bound { name: "bound_C", meaning: "greatest norm of the digits of g" },
    Bound { name: "bound_D", meaning: "greatest norm of the digits of h" },
];

/// The words of section one after its count.
pub const COUNT: usize = PARAMETERS.len() + 3 * BOUNDS.len();

/// The parameters of a job, by the header's names.
#[allow(non_snake_case)]
#[derive(Clone, Copy, Debug, PartialEq, Eq)]
pub struct Parameters {
    pub n: u32,
    pub r: u32,
    pub kappa: u32,
    pub kappa_1: u32,
    pub kappa_2: u32,
    pub K: u32,
    pub l: u32,
    pub log_q: u32,
    pub b: u32,
    pub t_1: u32,
    pub t_2: u32,
    pub L: u32,
}

impl Parameters {
    /// In the order of section one.
    #[allow(non_snake_case)]
    pub fn words(&self) -> [u32; PARAMETERS.len()] {
        let Parameters { n, r, kappa, kappa_1, kappa_2, K, l, log_q, b, t_1, t_2, L } = *self;
        [n, r, kappa, kappa_1, kappa_2, K, l, log_q, b, t_1, t_2, L]
    }

    /// Of words in the order of section one.
    #[allow(non_snake_case)]
    pub fn from_words(words: [u32; PARAMETERS.len()]) -> Parameters {
        let [n, r, kappa, kappa_1, kappa_2, K, l, log_q, b, t_1, t_2, L] = words;
        Parameters { n, r, kappa, kappa_1, kappa_2, K, l, log_q, b, t_1, t_2, L }
    }

    /// A small load that runs at once: four elements a vector, three vectors, two constraints of each kind.
    pub const SMALL: Parameters = Parameters {
        n: 4,
        r: 3,
        kappa: 4,
        kappa_1: 4,
        kappa_2: 4,
        K: 2,
        l: 2,
        log_q: 32,
        b: 256,
        t_1: 4,
        t_2: 4,
        L: 4,
    };

    /// The least L: 128 divided by log_q, rounded up.
    pub fn least_aggregations(&self) -> u32 {
        128u32.div_ceil(self.log_q.max(1))
    }

    /// T, the cells of a triangle of r rows.
    pub fn triangle(&self) -> u64 {
        let r = u64::from(self.r);
        r * (r + 1) / 2
    }

    /// Whether each parameter is within its limits, so that the counts of the sections can be reckoned.
    pub fn within_limits(&self) -> bool {
        let each = PARAMETERS.iter().zip(self.words());
        each.into_iter().all(|(p, word)| (p.least..=p.greatest).contains(&word)) && (self.K > 0 || self.l > 0)
    }
}

/// Section one as it stands in a job.
#[derive(Clone, Copy, Debug, PartialEq, Eq)]
pub struct SectionOne {
    pub parameters: Parameters,
    /// In the order of [`BOUNDS`].
    pub bounds: [u128; BOUNDS.len()],
}

impl SectionOne {
    /// Section one of a job whose first count is right and that does not end within it; its words are not judged.
    pub fn read(job: &[u32]) -> Option<SectionOne> {
        let (count, words) = job.split_first()?;
        if *count as usize != COUNT || words.len() < COUNT {
            return None;
        }
        let (parameters, bounds) = words[..COUNT].split_at(PARAMETERS.len());
        let bound = |k: usize| (0..3).map(|w| u128::from(bounds[3 * k + w]) << (32 * w)).sum();
        Some(SectionOne {
            parameters: Parameters::from_words(parameters.try_into().ok()?),
            bounds: std::array::from_fn(bound),
        })
    }

    /// The bound of this name in [`BOUNDS`].
    pub fn bound(&self, name: &str) -> u128 {
        let at = BOUNDS.iter().position(|b| b.name == name).expect("a name of the table");
        self.bounds[at]
    }

    /// Check 21's limit, 128·beta_sq.
    pub fn projection_limit(&self) -> u128 {
        128 * self.bound("beta_sq")
    }
}

/// What word `place` of a job is, for 1 to [`COUNT`]: a parameter, or word 0, 1 or 2 of a bound.
pub fn name_of(place: usize) -> Option<String> {
    let k = place.checked_sub(1)?;
    if let Some(p) = PARAMETERS.get(k) {
        return Some(p.name.to_string());
    }
    let k = k - PARAMETERS.len();
    let bound = BOUNDS.get(k / 3)?;
    Some(format!("{}, word {}", bound.name, k % 3))
}
