//! Pages whose commands are pasted into a shell.

use std::fs;
use std::path::{Path, PathBuf};
use std::process::Command;

use crate::desk::Desk;
use crate::run::{ran, BINARY};

pub fn root() -> PathBuf {
    Path::new(env!("CARGO_MANIFEST_DIR")).join("../../..")
}

/// The fenced blocks of this kind.
pub fn blocks(page: &str, kind: &str) -> Vec<String> {
    let fence = format!("```{kind}\n");
    page.split(&fence).skip(1).map(|rest| rest.split("```").next().unwrap_or_default().to_string()).collect()
}

/// Types what a script says in a desk's folder, with the binary on the path: all that is said, on both streams.
pub fn typed(desk: &Desk, script: &str) -> String {
    let folder = Path::new(BINARY).parent().expect("the binary's folder");
    let script = format!("PATH={}:$PATH\nexec 2>&1\n{script}", folder.display());
    let output = Command::new("sh").args(["-c", &script]).current_dir(&desk.folder).output().expect("a shell");
    let [told, _] = ran(output).streams;
    told
}

/// Pastes the blocks of a page as they stand: what its text blocks show is said, each line behind the one before. Gives the folder.
pub fn page_is_true(name: &str, least: usize) -> Desk {
    let page = fs::read_to_string(root().join("docs").join(name)).expect("the page");
    let (commands, said) = (blocks(&page, "sh"), blocks(&page, "text").concat());
    assert!(commands.len() >= least && said.lines().count() >= least, "{commands:?}");
    let desk = Desk::new(&format!("page_{name}"));
    let told = typed(&desk, &commands.concat());
    let mut lines = told.lines();
    for line in said.lines() {
        let is_said = |found: &str| line.strip_suffix('…').map_or(found == line, |begin| found.starts_with(begin));
        assert!(lines.any(is_said), "{line} is not said in its place:\n{told}");
    }
    desk
}
