//! Which archive the build script links: it is compiled and run in a small tree, with a kit that only makes a file.

use std::fs::{self, File};
use std::os::unix::fs::PermissionsExt;
use std::path::{Path, PathBuf};
use std::process::{Command, Output};
use std::time::{Duration, SystemTime};

/// Stands for the archive: the one call that the script makes, modulo 1001.
const CALL: &str = "#include \"labrador.h\"\n\
    labrador_word_answer labrador_zq_neg(uint32_t a) { labrador_word_answer made = {0, 0, 1001 - a}; return made; }\n";

struct Tree {
    root: PathBuf,
}

fn said(command: &mut Command) -> Output {
    command.output().unwrap_or_else(|error| panic!("{command:?}: {error}"))
}

fn done(command: &mut Command) {
    let output = said(command);
    assert!(output.status.success(), "{command:?}: {}", String::from_utf8_lossy(&output.stderr));
}

impl Tree {
    fn new() -> Tree {
        // outside the repository, in which the kit takes such files in its own crates alone
        let root = std::env::temp_dir().join(format!("labrador-{}", std::process::id())).join("linked");
        let _ = fs::remove_dir_all(&root);
        for folder in ["crates/a/src", "crates/labrador_c/src", "bindings/rust", "kit", "out"] {
            fs::create_dir_all(root.join(folder)).unwrap();
        }
        let package = Path::new(env!("CARGO_MANIFEST_DIR"));
        fs::copy(package.join("../labrador.h"), root.join("bindings/labrador.h")).unwrap();
        for (file, text) in [("crates.txt", "a:\n"), ("crates/a/src/lib.rt", ""), ("call.c", CALL)] {
            fs::write(root.join(file), text).unwrap();
        }
        let tree = Tree { root };
        done(tree.command("rustc").args(["--edition", "2021", "-o", "script"]).arg(package.join("build.rs")));
        done(tree.command("cc").args(["-Ibindings", "-c", "call.c", "-o", "made.a"]));
        let kit = tree.root.join("kit/rt");
        let text = "#!/bin/sh\nset -e\necho \"$@\" >>../../called\nmkdir -p out\ncp ../../made.a out/liblabrador_c.a\n";
        fs::write(&kit, text).unwrap();
        fs::set_permissions(&kit, fs::Permissions::from_mode(0o755)).unwrap();
        tree
    }

    fn command(&self, program: &str) -> Command {
        let mut command = Command::new(program);
        command.current_dir(&self.root);
        command
    }

    /// What the script says, with or without the kit at hand, and with this archive named.
    fn script(&self, kit: bool, named: &str) -> Output {
        let path = std::env::var("PATH").unwrap_or_default();
        // without any other kit
        let others = path.split(':').filter(|folder| !Path::new(folder).join("rt").exists());
        let own = self.root.join("kit").display().to_string();
        let path: Vec<&str> = others.chain(kit.then_some(own.as_str())).collect();
        let mut script = self.command("./script");
        script.env("PATH", path.join(":")).env("OUT_DIR", self.root.join("out")).env("LABRADOR_ARCHIVE", named);
        said(script.env("CARGO_MANIFEST_DIR", self.root.join("bindings/rust")))
    }

    fn calls_of_the_kit(&self) -> usize {
        fs::read_to_string(self.root.join("called")).map_or(0, |calls| calls.lines().count())
    }
}

impl Drop for Tree {
    fn drop(&mut self) {
        let _ = fs::remove_dir_all(self.root.parent().unwrap());
    }
}

/// The folder of the archive that is linked, and whether something is said to take minutes.
fn told(output: &Output) -> (String, bool) {
    let text = String::from_utf8_lossy(&output.stdout).into_owned();
    assert!(output.status.success(), "{text}{}", String::from_utf8_lossy(&output.stderr));
    let folder = text.lines().find_map(|line| line.strip_prefix("cargo:rustc-link-search=native=")).expect("a folder");
    assert!(text.contains("cargo:rustc-env=LABRADOR_Q=1001"), "{text}");
    let name = Path::new(folder).file_name().unwrap().to_string_lossy().into_owned();
    (name, text.contains("cargo:warning=") && text.contains("takes minutes"))
}

#[test]
fn an_archive_that_is_there_is_not_proved_again() {
    let tree = Tree::new();
    let none = tree.script(false, "");
    let error = String::from_utf8_lossy(&none.stderr).into_owned();
    assert!(!none.status.success() && error.contains("LABRADOR_ARCHIVE names no archive"), "{error}");
    // made by the kit, which is said; then taken as it is; then made again for a file that is newer
    assert_eq!((told(&tree.script(true, "")), tree.calls_of_the_kit()), (("staticlib".to_string(), true), 1));
    assert_eq!((told(&tree.script(true, "")), tree.calls_of_the_kit()), (("staticlib".to_string(), false), 1));
    let later = SystemTime::now() + Duration::from_secs(100);
    File::options().write(true).open(tree.root.join("crates/a/src/lib.rt")).unwrap().set_modified(later).unwrap();
    assert_eq!((told(&tree.script(true, "")), tree.calls_of_the_kit()), (("staticlib".to_string(), true), 2));
    // one that is named is taken whatever else is there; a relative path counts from the crate's folder
    assert_eq!((told(&tree.script(true, "../../made.a")), tree.calls_of_the_kit()), (("linked".to_string(), false), 2));
}
