//! The page of statements, pasted; and the statement of the C demonstration.

use std::fs;

use labrador::statement::Statement;
use labrador::{hex, sha256};

use crate::common::over;
use crate::pasted::{page_is_true, root};

#[test]
fn the_commands_of_the_page_say_what_it_says() {
    if over(false, true) {
        return println!("not tried: docs/STATEMENT.md, whose figures are of 4294967295");
    }
    page_is_true("STATEMENT.md", 8);
}

/// What stands between two marks of a text.
fn between<'a>(text: &'a str, first: &str, last: &str) -> &'a str {
    let rest = text.split_once(first).unwrap_or_else(|| panic!("{first}")).1;
    rest.split_once(last).unwrap_or_else(|| panic!("{last}")).0
}

/// The demonstration writes its job by hand and ends where its digest is another: it is that of the statement that it prints.
#[test]
fn the_demonstration_s_job_is_that_of_its_statement() {
    let source = fs::read_to_string(root().join("bindings/demo.c")).expect("the demonstration");
    let quoted: Vec<&str> = between(&source, "statement[] = {", "};").split('"').skip(1).step_by(2).collect();
    let statement = Statement::parse(&quoted.join("\n")).unwrap_or_else(|mistake| panic!("{mistake}"));
    let bytes: Vec<u8> = statement.job().iter().flat_map(|word| word.to_le_bytes()).collect();
    let digest = hex(&sha256(&bytes));
    // of 4294967295, then of the prime
    let digests: Vec<&str> = between(&source, "job_digest = ", ";").split('"').skip(1).step_by(2).collect();
    assert_eq!(digests[over(0, 1)], digest);
}
