//! The headers as C has them.

use std::path::Path;
use std::process::Command;

use labrador::Q;

/// The folder of the headers.
const HEADERS: &str = concat!(env!("CARGO_MANIFEST_DIR"), "/..");

/// The text of `labrador.h`.
pub fn header() -> String {
    std::fs::read_to_string(Path::new(HEADERS).join("labrador.h")).expect("the header")
}

fn said(command: &mut Command) -> String {
    let told = command.output().expect("it can be run");
    assert!(told.status.success(), "{command:?}:\n{}", String::from_utf8_lossy(&told.stderr));
    String::from_utf8(told.stdout).expect("UTF-8")
}

/// What a program over the headers prints; `name` is its own among the tests.
pub fn printed(name: &str, statements: &str) -> String {
    let folder = Path::new(env!("CARGO_TARGET_TMPDIR"));
    let (source, program) = (folder.join(format!("{name}.c")), folder.join(name));
    let text =
        format!("#include <stdio.h>\n#include \"labrador_texts.h\"\nint main(void) {{\n{statements}return 0;\n}}\n");
    std::fs::write(&source, text).expect("the folder can be written");
    let strict = ["-std=c99", "-Wall", "-Wextra", "-pedantic", "-Werror", "-I", HEADERS];
    said(Command::new("cc").args(strict).arg(format!("-DLABRADOR_Q={Q}u")).arg("-o").arg(&program).arg(&source));
    said(&mut Command::new(&program))
}
