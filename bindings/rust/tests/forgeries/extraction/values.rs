//! The three values that a challenge has in a fork.

use labrador::Element;

use crate::linear::inverse_of;
use crate::ring::{challenges, sub};
use crate::words::Words;

/// A challenge and its words.
#[derive(Clone)]
pub struct Challenge {
    pub signs: Vec<u32>,
    pub shuffle: Vec<u32>,
    pub element: Element,
}

impl Challenge {
    pub fn drawn(desk: &mut Words) -> Challenge {
        let signs: Vec<u32> = (0..41).map(|_| desk.bit()).collect();
        let shuffle: Vec<u32> = (0..63).map(|_| desk.free()).collect();
        let element = challenges(&signs, &shuffle)[0];
        Challenge { signs, shuffle, element }
    }
}

/// Which of the values a challenge has: c_i, x_i or y_i.
#[derive(Clone, Copy, Debug, PartialEq, Eq)]
pub enum Pick {
    C,
    X,
    Y,
}

use Pick::{C, X, Y};

/// The differences that are to be units.
pub const PAIRS: [(Pick, Pick); 3] = [(X, C), (Y, C), (X, Y)];

/// c_i, x_i and y_i, and the inverses of their differences in the order of `PAIRS`, where they have any.
#[derive(Clone)]
pub struct Values {
    challenges: [Challenge; 3],
    pub inverses: [Option<Element>; 3],
}

impl Values {
    fn of(challenges: [Challenge; 3]) -> Values {
        let mut values = Values { challenges, inverses: [None; 3] };
        values.inverses = PAIRS.map(|(a, b)| inverse_of(&values.difference(a, b)));
        values
    }

    /// Drawn until the differences are as wanted.
    pub fn drawn(mut draw: impl FnMut() -> [Challenge; 3], is_wanted: impl Fn(&Values) -> bool) -> Values {
        loop {
            let values = Values::of(draw());
            if is_wanted(&values) {
                return values;
            }
        }
    }

    /// Drawn until all differences are units.
    pub fn with_units(desk: &mut Words) -> Values {
        let draw = || std::array::from_fn(|_| Challenge::drawn(desk));
        Values::drawn(draw, |values| values.inverses.iter().all(Option::is_some))
    }

    pub fn at(&self, pick: Pick) -> &Challenge {
        &self.challenges[pick as usize]
    }

    pub fn difference(&self, a: Pick, b: Pick) -> Element {
        sub(&self.at(a).element, &self.at(b).element)
    }
}
