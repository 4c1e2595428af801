//! The page of sessions, pasted.

use std::fs;

use crate::common::over;
use crate::pasted::page_is_true;

#[test]
fn the_commands_of_the_page_say_what_it_says() {
    if over(false, true) {
        return println!("not tried: docs/SESSION.md, whose figures are of 4294967295");
    }
    let desk = page_is_true("SESSION.md", 8);
    let page = fs::read_to_string(desk.path("desk/page.html")).expect("the page that is filed");
    assert_eq!(page.matches("✓</span> accepted").count(), 8);
}
