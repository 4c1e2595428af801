//! What occurred, what must occur, and what differs.

use std::collections::BTreeMap;

#[derive(Default)]
pub struct Tally {
    /// How often each row occurred, under its heading; rows that must occur start at 0.
    rows: BTreeMap<(&'static str, String), u64>,
    /// How often each comparison was made, and how often the two differed. Each must be made.
    compared: BTreeMap<&'static str, Counted>,
    /// What was compared when the last stage ended.
    shown: Counted,
}

#[derive(Clone, Copy, Default)]
struct Counted {
    made: u64,
    differ: u64,
}

/// Differences of a comparison beyond this many are counted and not printed.
const SHOWN: u64 = 10;

impl Tally {
    pub fn must_occur(&mut self, heading: &'static str, row: impl ToString) {
        self.rows.entry((heading, row.to_string())).or_default();
    }

    pub fn occurred(&mut self, heading: &'static str, row: impl ToString) {
        *self.rows.entry((heading, row.to_string())).or_default() += 1;
    }

    pub fn must_compare(&mut self, kinds: &[&'static str]) {
        for kind in kinds {
            self.compared.entry(kind).or_default();
        }
    }

    /// Counts a comparison of a kind that must be made, and prints it where the two differ.
    pub fn compare<T: PartialEq + std::fmt::Debug>(
        &mut self,
        kind: &'static str,
        ours: &T,
        theirs: &T,
        case: impl FnOnce() -> String,
    ) {
        let Some(counted) = self.compared.get_mut(kind) else {
            panic!("a comparison that need not be made: {kind}");
        };
        counted.made += 1;
        if ours != theirs {
            counted.differ += 1;
            if counted.differ <= SHOWN {
                let cut = |text: String| text.chars().take(400).collect::<String>();
                println!("differs: {kind}: {}", case());
                println!("  {}", cut(format!("{ours:?}")));
                println!("  {}", cut(format!("{theirs:?}")));
            }
        }
    }

    /// The comparisons of some kinds.
    fn counted(&self, of: impl Fn(&str) -> bool) -> Counted {
        let mut all = Counted::default();
        for (_, counted) in self.compared.iter().filter(|(kind, _)| of(kind)) {
            all.made += counted.made;
            all.differ += counted.differ;
        }
        all
    }

    /// Prints what was compared since the last stage.
    pub fn stage(&mut self, name: &str) {
        let all = self.counted(|_| true);
        let (made, differ) = (all.made - self.shown.made, all.differ - self.shown.differ);
        println!("stage: {name}: {made} comparisons, {differ} differ");
        self.shown = all;
    }

    /// Prints everything; true where nothing differs, no row is empty and each comparison was made.
    pub fn report(&self) -> bool {
        let mut heading = "";
        let mut never = 0;
        let mut mark = |count: u64| {
            never += u64::from(count == 0);
            if count == 0 {
                "  never"
            } else {
                ""
            }
        };
        for ((h, row), count) in &self.rows {
            if *h != heading {
                println!("\n{h}");
                heading = h;
            }
            println!("  {count:>8}  {row}{}", mark(*count));
        }
        println!("\ncompared");
        for (kind, counted) in &self.compared {
            let differ = match counted.differ {
                0 => String::new(),
                differ => format!("  {differ} differ"),
            };
            println!("  {:>8}  {kind}{differ}{}", counted.made, mark(counted.made));
        }
        let all = self.counted(|_| true);
        let rust = self.counted(|kind| kind.starts_with("library: ") && kind.contains(" with the Rust's"));
        let model = self.counted(|kind| kind.starts_with("library: ") && !kind.contains(" with the Rust's"));
        println!(
            "\n{} comparisons; of calls of the library {} with the Rust and {} with the model",
            all.made, rust.made, model.made
        );
        println!("{} differ, {never} answers or comparisons that must occur did not", all.differ);
        all.differ == 0 && never == 0
    }
}
