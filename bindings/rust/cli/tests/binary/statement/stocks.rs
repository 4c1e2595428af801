//! `labrador stock`

use labrador::{HALF, Q};

use super::{made, store};
use crate::run::run;

#[test]
fn the_witness_of_a_list() {
    let desk = made("stock_made");
    let witness = desk.words("witness");
    assert_eq!((witness.len(), witness[0], &witness[1..4]), (129, 128, &[25, 35, 0][..]));
    desk.text("b.stock", "-5\r\n\n# second\n+7");
    let ran = run(&desk, "stock b.stock --job job --witness b.witness");
    assert_eq!((ran.status, ran.line.as_str()), (0, "labrador: made a witness of 129 words\n"));
    assert_eq!(desk.words("b.witness")[1..4], [Q - 5, 7, 0]);
    assert_eq!(run(&desk, "stock b.stock --job job --witness witness").status, 3);
    assert_eq!(desk.words("witness"), witness);
    let json = run(&desk, "stock b.stock --job job --witness witness --force --json");
    assert!(json.out.ends_with("\"witness\":129}\n"), "{}", json.out);
}

#[cfg(unix)]
#[test]
fn a_witness_is_for_its_owner_alone() {
    use std::os::unix::fs::PermissionsExt;
    let desk = made("stock_mode");
    let mode = std::fs::metadata(desk.path("witness")).unwrap().permissions().mode();
    assert_eq!(mode & 0o777, 0o600);
}

#[test]
fn a_mistake_makes_nothing() {
    let desk = store("stock_mistake");
    assert_eq!(run(&desk, "statement a.statement --job job").status, 0);
    let above = HALF + 1;
    desk.text("b.stock", &format!("1\n{above}\n"));
    let ran = run(&desk, "stock b.stock --job job --witness witness");
    let told = format!("labrador: b.stock: line 2, column 1: {above} stands there; a line of stock has a number from -{HALF} to {HALF}\n");
    assert_eq!((ran.status, ran.line), (2, told));
    desk.text("b.stock", "0,0,1\n0,64,2\n");
    let ran = run(&desk, "stock b.stock --job job --witness witness --json");
    assert!(ran.out.contains("\"line\":2,\"column\":3,\"found\":\"64\","), "{}", ran.out);
    desk.text("b.stock", "0,0,1\n0,64,2\n2,0,1\n1,0,1\n");
    let ran = run(&desk, "stock b.stock --job job --witness witness");
    assert_eq!((ran.status, ran.line.lines().count()), (2, 2), "{}", ran.line);
    assert!(ran.line.lines().nth(1).unwrap().starts_with("labrador: b.stock: line 3, column 1: "), "{}", ran.line);
    assert!(!desk.names().contains(&"witness".to_string()));
}
