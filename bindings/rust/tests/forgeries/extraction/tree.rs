//! A tree of forks of the library's prover, at alpha and beta and at psi and omega: the extracted vectors meet every constraint, and
//! their projection is p.

use labrador::{Element, Parameters, Slice, Zq};

use super::ending::{ending, Ending};
use super::equation::{aggregated, of_constant_coefficients, ring_constraints, row, Equation};
use super::fork::{before, Fork, Honest};
use super::honest::met;
use super::values::Values;
use crate::common::begin;
use crate::linear::inverse_of;
use crate::ring::{half, mul, split, sub, to_elements};
use crate::statement::{Statement, SMALLEST};
use crate::words::Words;

struct Tree {
    statement: Statement,
    values: Vec<Values>,
    /// u1, t, g and p: those of every fork, as the witness and Π are.
    sent: [Vec<u32>; 4],
    /// The extracted vectors.
    found: Vec<Element>,
    /// Vectors that meet nothing.
    others: Vec<Element>,
    unit: Element,
    inverse: Element,
}

/// A fork's randomness up to the challenges, b'', and the equation that was aggregated.
struct Node {
    drawn: Vec<u32>,
    b: Vec<Element>,
    equation: Equation,
}

fn sent(fork: &Fork) -> [Vec<u32>; 4] {
    ["u1", "t", "g", "p"].map(|name| fork.sent(name))
}

fn extracted(statement: &Statement, fork: &Fork) -> Vec<Element> {
    match ending(statement, fork) {
        Ending::Extracted(found) => found,
        other => panic!("{other:?}"),
    }
}

impl Tree {
    fn new(p: &Parameters, words: &mut Words) -> (Tree, Node) {
        let (statement, values) = met(p, words);
        let fork = Fork::new(p, &mut Honest(&statement), &before(p, words), &values);
        let (found, sent) = (extracted(&statement, &fork), sent(&fork));
        let others = to_elements(&words.numbers(64 * u64::from(p.r * p.n)));
        let drawn_unit = || {
            let unit = to_elements(&words.numbers(64))[0];
            Some((unit, inverse_of(&unit)?))
        };
        let (unit, inverse) = std::iter::repeat_with(drawn_unit).flatten().next().expect("units are drawn");
        let tree = Tree { statement, values, sent, found, others, unit, inverse };
        let root = tree.node(fork.drawn);
        (tree, root)
    }

    /// The fork of this randomness: what it gives away is what the first one gave.
    fn node(&self, drawn: Vec<u32>) -> Node {
        let fork = Fork::new(&self.statement.parameters, &mut Honest(&self.statement), &drawn, &self.values);
        assert!(extracted(&self.statement, &fork) == self.found);
        assert!(sent(&fork) == self.sent);
        let b = to_elements(&fork.sent("b''"));
        let equation = aggregated(&self.statement, &drawn, &self.sent[3], &b);
        Node { drawn, b, equation }
    }

    /// The randomness with words of a section raised.
    fn raised(&self, drawn: &[u32], name: &str, at: usize, by: &[u32]) -> Vec<u32> {
        let begin = begin(Slice::Randomness, &self.statement.parameters, name) + at;
        let mut drawn = drawn.to_vec();
        for (word, &by) in drawn[begin..].iter_mut().zip(by) {
            *word = Zq(*word).add(Zq(by)).expect("canonical words").0;
        }
        drawn
    }

    /// A weight of alpha or beta raised by a unit: the two aggregated equations differ by the unit times the weighed equation, which is
    /// therefore met.
    fn hold_weighed(&self, node: &Node, name: &str, k: usize, weighed: &Equation) {
        let other = self.node(self.raised(&node.drawn, name, 64 * k, &self.unit.coeffs));
        assert!(other.b == node.b);
        let error = |s: &[Element]| mul(&self.inverse, &sub(&other.equation.error(s), &node.equation.error(s)));
        assert_eq!(error(&self.others), weighed.error(&self.others));
        assert_ne!(error(&self.others), Element::ZERO);
        assert_eq!(error(&self.found), Element::ZERO);
        assert_eq!(weighed.error(&self.found), Element::ZERO);
    }

    fn constants(&self, drawn: &[u32]) -> Vec<Equation> {
        of_constant_coefficients(&self.statement, split(drawn)[0], &self.sent[3])
    }

    /// Row k with the right side that check 22 asks for: b''_k has its constant coefficient, and the vectors have b''_k.
    fn hold_row(&self, node: &Node, k: usize) -> Equation {
        let row = row(&self.statement, &node.drawn, &self.constants(&node.drawn), k);
        self.hold_weighed(node, "beta", k, &row.clone().with_right_side(node.b[k]));
        assert_eq!(node.b[k].coeffs[0], row.b.coeffs[0]);
        assert_eq!(row.error(&self.found).coeffs[0], 0);
        row
    }

    /// A weight of psi or omega in row 0 raised by 2: the two rows differ by twice the weighed equation, whose constant coefficient is
    /// therefore met.
    fn hold_constant(&self, node: &Node, row: &Equation, (name, at): (&str, usize), weighed: &Equation) {
        let other = self.hold_row(&self.node(self.raised(&node.drawn, name, at, &[2])), 0);
        let error = |s: &[Element]| half(&sub(&other.error(s), &row.error(s))).coeffs[0];
        assert_eq!(error(&self.others), weighed.error(&self.others).coeffs[0]);
        assert_ne!(error(&self.others), 0);
        assert_eq!(error(&self.found), 0);
        assert_eq!(weighed.error(&self.found).coeffs[0], 0);
    }
}

fn hold(p: &Parameters) {
    let (tree, root) = Tree::new(p, &mut Words::seeded(38));
    assert!(tree.found == tree.statement.witness);
    for (k, constraint) in ring_constraints(&tree.statement).iter().enumerate() {
        tree.hold_weighed(&root, "alpha", k, constraint);
    }
    let rows: Vec<Equation> = (0..p.L as usize).map(|k| tree.hold_row(&root, k)).collect();
    let constants = tree.constants(&root.drawn);
    let (totals, projection) = constants.split_at(p.l as usize);
    for (x, total) in totals.iter().enumerate() {
        tree.hold_constant(&root, &rows[0], ("psi", x), total);
    }
    for j in (0..256).step_by(51) {
        tree.hold_constant(&root, &rows[0], ("omega", j), &projection[j]);
    }
    assert!(constants.iter().all(|equation| equation.error(&tree.found).coeffs[0] == 0));
}

#[test]
fn constraints_of_both_kinds() {
    hold(&Parameters { n: 2, kappa: 2, kappa_1: 2, kappa_2: 2, K: 2, l: 2, ..SMALLEST });
}

/// One element a vector, κ 3 and L 5.
#[test]
fn totals_alone() {
    hold(&Parameters { kappa: 3, l: 2, L: 5, ..SMALLEST });
}

/// A has more columns than rows.
#[test]
fn ring_constraints_alone() {
    hold(&Parameters { n: 3, K: 1, l: 0, ..SMALLEST });
}
