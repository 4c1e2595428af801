//! The forger of one slot: a prover that deviates where an error lies in one slot.

use labrador::{verify, Element, Parameters, Round, Verdict, Zq};

use crate::rates;
use crate::ring::{
    add, challenges, digits, dot, matrix_times, mul, number_dot, scale, section, split, sub, to_elements, to_words,
};
use crate::sessions::{before_the_challenges, honest, session, Prover, Session};
use crate::slot::Slot;
use crate::statement::Statement;
use crate::words::Words;

/// The errors are multiples of Q divided by the slot's prime: of totals, of ring constraints, or of p.
pub struct Forger<'a> {
    statement: &'a Statement,
    slot: &'a Slot,
    /// The job for the library's prover, which then refuses no norm.
    job: Vec<u32>,
    witness: Vec<u32>,
    /// Where p is sent modulo a number.
    p_modulus: Option<u32>,
    /// What was sent as p.
    p: Vec<u32>,
    /// ε_k, by which the b''_k that is sent is off.
    changes: Vec<Element>,
    /// D, by which the aggregated b is off.
    pub error: Element,
    /// What is sent as h.
    h: Vec<Element>,
}

impl<'a> Forger<'a> {
    pub fn new(statement: &'a Statement, slot: &'a Slot, p_modulus: Option<u32>) -> Forger<'a> {
        let (job, witness) = (statement.unlimited(), statement.witness_slice());
        let (p, changes, error, h) = (Vec::new(), Vec::new(), Element::ZERO, Vec::new());
        Forger { statement, slot, job, witness, p_modulus, p, changes, error, h }
    }

    fn parameters(&self) -> &'a Parameters {
        &self.statement.parameters
    }

    fn honest(&self, round: Round, drawn: &[u32]) -> Vec<u32> {
        honest(round, &self.job, drawn, &self.witness)
    }

    /// p, or its entries' remainders of least size.
    fn projection(&mut self, drawn: &[u32]) -> Vec<u32> {
        let p = self.honest(Round::Two, drawn);
        self.p = match self.p_modulus {
            None => p[1..].to_vec(),
            Some(modulus) => p[1..].iter().map(|&entry| remainder(entry, modulus)).collect(),
        };
        section(&self.p)
    }

    /// b''_k + ε_k: ε_k is a multiple of the slot's element and has the constant coefficient that check 22 asks for.
    fn aggregated(&mut self, drawn: &[u32]) -> Vec<u32> {
        let p = self.parameters();
        let [_, psi, omega] = split(drawn)[..] else { unreachable!("three sections are drawn") };
        let honest = to_elements(&self.honest(Round::Three, drawn)[1..]);
        let rows = (0..p.L as usize).map(|k| {
            let totals = number_dot(&psi[k * p.l as usize..(k + 1) * p.l as usize], self.statement.words("b0"));
            let asked = Zq(totals).add(Zq(number_dot(&omega[256 * k..256 * (k + 1)], &self.p)));
            let off = asked.and_then(|asked| asked.sub(Zq(honest[k].coeffs[0]))).expect("canonical words");
            scale(&self.slot.powers, off.0)
        });
        self.changes = rows.collect();
        let sent: Vec<Element> = honest.iter().zip(&self.changes).map(|(b, change)| add(b, change)).collect();
        section(&to_words(&sent))
    }

    /// u2 of h with 2·D more in h_11 and D less in h_12, so that 27 holds and 26 asks that a form of the challenges is 0.
    fn commitment(&mut self, drawn: &[u32]) -> Vec<u32> {
        let p = self.parameters();
        let [_, _, _, alpha, beta] = split(drawn)[..] else { unreachable!("five sections are drawn") };
        let left = self.statement.left_sides("a", "phi");
        let ring_errors: Vec<Element> =
            self.statement.elements("b").iter().zip(&left).map(|(b, l)| sub(b, l)).collect();
        self.error = add(&dot(&to_elements(alpha), &ring_errors), &dot(&to_elements(beta), &self.changes));
        let last = before_the_challenges(p, &self.job, drawn, &self.witness);
        self.h = to_elements(split(&last)[3]);
        self.h[0] = add(&self.h[0], &scale(&self.error, 2));
        if p.r > 1 {
            self.h[1] = sub(&self.h[1], &self.error);
        }
        let u2 = matrix_times(&self.statement.elements("D"), &digits(&self.h, p.b, p.t_1));
        section(&to_words(&u2))
    }

    /// z, t and g of an honest prover, and h as it was committed to.
    fn opening(&self, drawn: &[u32]) -> Vec<u32> {
        let honest = self.honest(Round::Five, drawn);
        let [z, t, g, _] = split(&honest)[..] else { unreachable!("round 5 makes four sections") };
        [z, t, g, &to_words(&self.h)].map(section).concat()
    }

    /// D·c_1·(c_1 - c_2), or D·c_1·c_1 where r is 1: check 26 passes where it is zero.
    pub fn form(&self, challenges: &[Element]) -> Element {
        let other = challenges.get(1).copied().unwrap_or(Element::ZERO);
        mul(&self.error, &mul(&challenges[0], &sub(&challenges[0], &other)))
    }

    /// A transcript is accepted exactly where the form of the challenges is zero, and else 26 fails.
    pub fn hold_verdict(&self, challenges: &[Element], verdict: &Verdict) {
        let expected = if self.form(challenges) == Element::ZERO { 0 } else { 26 };
        assert_eq!(verdict.number(), expected, "{verdict}");
    }
}

impl Prover for Forger<'_> {
    fn send(&mut self, round: Round, drawn: &[u32]) -> Vec<u32> {
        match round {
            Round::One => self.honest(round, drawn),
            Round::Two => self.projection(drawn),
            Round::Three => self.aggregated(drawn),
            Round::Four => self.commitment(drawn),
            Round::Five => self.opening(drawn),
        }
    }
}

/// A number's remainder of least size, of its centre.
fn remainder(number: u32, modulus: u32) -> u32 {
    let modulus = i64::from(modulus);
    let centre = Zq(number).centre().expect("a canonical word");
    let remainder = (centre + modulus / 2).rem_euclid(modulus) - modulus / 2;
    remainder.rem_euclid(labrador::Q.into()) as u32
}

/// A session of the forger that was judged.
pub struct Judged {
    pub session: Session,
    pub verdict: Verdict,
    /// D
    pub error: Element,
    pub challenges: Vec<Element>,
}

/// A session with honest randomness, its verdict held.
pub fn judged(statement: &Statement, slot: &Slot, p_modulus: Option<u32>, desk: &mut Words) -> Judged {
    let mut forger = Forger::new(statement, slot, p_modulus);
    let session = session(&statement.parameters, desk, &mut forger);
    let verdict = verify(&statement.job, &session.randomness, &session.transcript);
    let drawn = split(&session.randomness);
    let challenges = challenges(drawn[5], drawn[6]);
    forger.hold_verdict(&challenges, &verdict);
    Judged { verdict, error: forger.error, challenges, session }
}

/// Holds the rate of a route of one slot.
pub fn hold(
    route: &str,
    slot: &Slot,
    p: &Parameters,
    p_modulus: Option<u32>,
    make: impl Fn(&Slot, &Parameters, &mut Words) -> Statement,
) {
    let is_accepted =
        |statement: &Statement, desk: &mut Words| judged(statement, slot, p_modulus, desk).verdict.is_accepted();
    rates::hold(route, rates::one_slot(slot.prime, p.r), |words| make(slot, p, words), is_accepted);
}
