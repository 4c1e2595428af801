//! Near misses of a name.

/// How many letters are put in, left out, replaced or exchanged with their neighbour to make one name of the other.
fn distance(a: &str, b: &str) -> usize {
    let (a, b): (Vec<char>, Vec<char>) = (a.chars().collect(), b.chars().collect());
    let mut rows: Vec<Vec<usize>> = vec![(0..=b.len()).collect()];
    for i in 1..=a.len() {
        let mut row = vec![i];
        for j in 1..=b.len() {
            let replaced = rows[i - 1][j - 1] + usize::from(a[i - 1] != b[j - 1]);
            let mut least = replaced.min(rows[i - 1][j] + 1).min(row[j - 1] + 1);
            if i > 1 && j > 1 && a[i - 1] == b[j - 2] && a[i - 2] == b[j - 1] {
                least = least.min(rows[i - 2][j - 2] + 1);
            }
            row.push(least);
        }
        rows.push(row);
    }
    rows[a.len()][b.len()]
}

/// The name that was likely meant: one in three letters may be wrong, or its end left out.
fn nearest<'a>(given: &str, names: impl IntoIterator<Item = &'a str>) -> Option<&'a str> {
    let given = given.to_lowercase();
    let letters = given.trim_start_matches('-').chars().count();
    let off = |name: &str| match letters > 2 && name.starts_with(&given) {
        true => 0,
        false => distance(&given, &name.to_lowercase()),
    };
    let best = names.into_iter().min_by_key(|name| off(name))?;
    (off(best) <= letters / 3).then_some(best)
}

/// `: did you mean verify?` after a name that is not known, where one is near, else `;`: a hint follows.
pub fn meant<'a>(given: &str, names: impl IntoIterator<Item = &'a str>) -> String {
    nearest(given, names).map_or(";".to_string(), |name| format!(": did you mean {name}?"))
}

#[cfg(test)]
mod tests {
    use super::{distance, nearest};

    #[test]
    fn near_names_are_found() {
        assert_eq!((distance("prvoe", "prove"), distance("verfy", "verify"), distance("", "abc")), (1, 1, 3));
        let names = ["verify", "verify-many", "prove", "n", "--job"];
        let given = ["verfy", "verify_many", "prvoe", "N", "--jobs", "judge", "--x", "", "m"];
        let told = given.map(|given| nearest(given, names).unwrap_or("none"));
        assert_eq!(told, ["verify", "verify-many", "prove", "n", "--job", "none", "none", "none", "none"]);
    }
}
