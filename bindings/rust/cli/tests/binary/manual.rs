//! The page of the command line, `docs/CLI.md`: its tour, pasted, and its commands against the help. The README's commands, pasted.

use std::fs;

use crate::common::over;
use crate::desk::Desk;
use crate::pasted::{page_is_true, root, typed};
use crate::run::run;

#[cfg(unix)]
#[test]
fn the_tour_says_what_it_says() {
    if over(false, true) {
        return println!("not tried: docs/CLI.md, whose figures are of 4294967295");
    }
    page_is_true("CLI.md", 4);
}

#[cfg(unix)]
#[test]
fn the_commands_of_the_readme_are_accepted() {
    let readme = fs::read_to_string(root().join("README.md")).expect("the README");
    let commands: Vec<&str> = readme.lines().filter(|line| line.starts_with("    labrador ")).collect();
    assert_eq!(commands.len(), 3, "{commands:?}");
    let told = typed(&Desk::new("readme"), &commands.join("\n"));
    assert!(
        told.lines().last().is_some_and(|line| line.starts_with("labrador: accepted; one transcript: 1 in ")),
        "{told}"
    );
}

/// What `.ci/cli` writes of a command: its help, with all but the first line in a block.
fn written(name: &str, help: &str) -> String {
    let (about, called) = help.split_once("\n\n").expect("a first line, and how it is called");
    format!("\n### {name}\n\n{about}\n\n```\n{called}```\n")
}

#[test]
fn the_page_has_every_command_as_the_help_tells_it() {
    if over(false, true) {
        return println!("not tried: the commands of docs/CLI.md, with limits of 4294967295");
    }
    let desk = Desk::new("manual");
    let page = fs::read_to_string(root().join("docs/CLI.md")).expect("the page");
    let (_, listed) = page.split_once("<!-- the commands: written by .ci/cli -->\n").expect("the mark");
    let help = run(&desk, "help").out;
    let names = help
        .split("\n\n")
        .nth(1)
        .expect("the commands")
        .lines()
        .map(|line| line.split_whitespace().next().expect("a name"));
    let all: String = names.map(|name| written(name, &run(&desk, &format!("help {name}")).out)).collect();
    assert!(all.matches("\n### ").count() >= 15, "{all}");
    assert!(listed == all, "docs/CLI.md is not as `bash .ci/cli` writes it");
}
