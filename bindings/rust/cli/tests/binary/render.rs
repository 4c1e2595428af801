//! The page in Chromium, where it is at hand: its printed sheets, and nothing wider than a small screen.

use std::fs;
use std::path::Path;
use std::process::{Command, Stdio};

use crate::desk::Desk;
use crate::pages::{desk_of, page_of};
use crate::run::run;

fn chromium() -> Option<&'static str> {
    let runs = |name: &&str| {
        let mut command = Command::new(name);
        command.arg("--version").stdout(Stdio::null()).stderr(Stdio::null());
        command.status().is_ok_and(|status| status.success())
    };
    ["chromium", "chromium-browser", "google-chrome"].into_iter().find(runs)
}

fn rendered(browser: &str, desk: &Desk, arguments: &[&str], page: &Path) -> Vec<u8> {
    let mut command = Command::new(browser);
    command.args(["--headless", "--no-sandbox", "--disable-gpu", "--no-first-run", "--hide-scrollbars"]);
    command.arg(format!("--user-data-dir={}", desk.path("browser").display()));
    command.args(arguments).arg(format!("file://{}", page.display()));
    command.stdin(Stdio::null()).stderr(Stdio::null()).output().expect("Chromium runs").stdout
}

/// The printed sheets of a page.
fn sheets(browser: &str, desk: &Desk) -> usize {
    let pdf = desk.path("page.pdf");
    let print = format!("--print-to-pdf={}", pdf.display());
    rendered(browser, desk, &["--no-pdf-header-footer", &print], &desk.path("page.html"));
    let bytes = fs::read(pdf).expect("printed sheets");
    let text = String::from_utf8_lossy(&bytes);
    text.matches("/Type /Page\n").count() + text.matches("/Type /Page ").count()
}

/// How wide the page is in a frame of this width. The page itself has no scripts; the one that measures is the test's.
fn width_in(browser: &str, desk: &Desk, width: usize) -> usize {
    let page = fs::read_to_string(desk.path("page.html")).expect("the page");
    let quoted = page.replace('&', "&amp;").replace('"', "&quot;");
    let measure = "document.title = 'width ' + f.contentDocument.documentElement.scrollWidth";
    let frame = format!(
        "<iframe id=f width={width} height=900 style=\"border:0\" srcdoc=\"{quoted}\" onload=\"{measure}\"></iframe>"
    );
    let path = desk.path("frame.html");
    fs::write(&path, format!("<!DOCTYPE html><meta charset=utf-8><title></title>{frame}")).expect("the frame");
    let dom = String::from_utf8_lossy(&rendered(browser, desk, &["--dump-dom"], &path)).into_owned();
    let (_, rest) = dom.split_once("<title>width ").expect("a measured width");
    rest.split('<').next().and_then(|number| number.parse().ok()).expect("a number")
}

#[test]
fn each_part_begins_a_sheet_and_pages_fit_a_small_screen() {
    let Some(browser) = chromium() else {
        println!("not rendered: Chromium is not at hand");
        return;
    };
    let numbers = [0, 21, 22, 23, 29, 3, 6];
    for number in numbers {
        let desk = desk_of("render", number);
        page_of(&desk);
        // three parts, of which the second can go on on another sheet
        let sheets = sheets(browser, &desk);
        assert!((3..=4).contains(&sheets), "{number}: {sheets} sheets");
        assert_eq!(width_in(browser, &desk, 340), 340, "{number}");
    }
    println!("rendered: the pages of {} answers, in {browser}", numbers.len());
}

#[test]
fn the_page_of_eight_has_three_parts_and_fits_a_small_screen() {
    let Some(browser) = chromium() else {
        return println!("not rendered: Chromium is not at hand");
    };
    let desk = desk_of("render_eight", 0);
    let pairs = " randomness transcript".repeat(8);
    assert_eq!(run(&desk, &format!("verify-many --job job --report page.html{pairs}")).status, 0);
    let sheets = sheets(browser, &desk);
    assert!((3..=5).contains(&sheets), "{sheets} sheets");
    assert_eq!(width_in(browser, &desk, 340), 340);
}
