//! The header's version is the crate's.

use crate::c;

#[test]
fn the_version_is_the_crates() {
    let statements = r#"printf("%s\n%d.%d.%d\n", LABRADOR_VERSION, LABRADOR_VERSION_MAJOR, LABRADOR_VERSION_MINOR, LABRADOR_VERSION_PATCH);
"#;
    let version = env!("CARGO_PKG_VERSION");
    assert_eq!(c::printed("version", statements), format!("{version}\n{version}\n"));
}
