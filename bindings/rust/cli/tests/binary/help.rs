//! The help, the man page and the completions, which are made of one table; and near misses of a name.

use std::fs;
use std::process::Command;

use crate::common::with_answer;
use crate::desk::Desk;
use crate::run::{run, BINARY};

/// The commands that the help names, with what each is for.
fn commands(desk: &Desk) -> Vec<(String, String)> {
    let help = run(desk, "help").out;
    let listed = help.split("\n\n").nth(1).expect("the commands").lines();
    listed
        .map(|line| line.trim().split_once(' ').expect("a name and a sentence"))
        .map(|(name, brief)| (name.to_string(), brief.trim().to_string()))
        .collect()
}

#[test]
fn help_says_what_each_command_is_for() {
    let desk = Desk::new("what_for");
    let commands = commands(&desk);
    assert!(commands.len() >= 15 && commands.iter().any(|(name, _)| name == "verify-many"), "{commands:?}");
    for (name, brief) in commands {
        assert!(brief.len() > 15 && brief.len() < 120, "{name}: {brief}");
        let help = run(&desk, &format!("help {name}")).out;
        assert!(help.starts_with(&brief) && help.contains(&format!("labrador {name} ")), "{help}");
        assert_eq!(run(&desk, &format!("{name} -h")).out, help);
    }
    let version = run(&desk, "-V");
    assert_eq!((version.status, &version.out), (0, &run(&desk, "--version").out));
    assert!(version.out.starts_with("labrador ") && version.out.ends_with(char::is_whitespace), "{}", version.out);
}

#[test]
fn help_for_machines_is_json() {
    let desk = Desk::new("help_json");
    let (general, verify) = (run(&desk, "help").out, run(&desk, "verify --help").out);
    let first = |text: &str| text.lines().next().unwrap().to_string();
    for (call, told) in [
        ("--json --help", &general),
        ("--help --json", &general),
        ("--json help", &general),
        ("verify --json --help", &verify),
        ("verify --help --json", &verify),
        ("--json verify --help", &verify),
        ("help verify --json", &verify),
    ] {
        let json = run(&desk, call);
        let begin = format!("{{\"status\":0,\"says\":\"\",\"help\":\"{}\\u000a", first(told));
        assert!(json.status == 0 && json.out.starts_with(&begin), "{call}: {}", json.out);
        assert_eq!((json.out.lines().count(), json.line.as_str()), (1, ""));
    }
    let version = run(&desk, "--version --json").out;
    assert!(version.starts_with("{\"status\":0,\"says\":\"\",\"version\":\"labrador "), "{version}");
    let before = run(&desk, "--json verify --job");
    assert!(before.status == 64 && before.out.starts_with("{\"status\":64,"), "{}", before.out);
}

#[test]
fn near_misses_are_told() {
    let desk = Desk::new("near");
    for (call, told) in [
        ("verfy", "labrador: there is no command verfy: did you mean verify? labrador help names them\n"),
        ("verify_many", "labrador: there is no command verify_many: did you mean verify-many? labrador help names them\n"),
        ("help prvoe", "labrador: there is no command prvoe: did you mean prove? labrador help names them\n"),
        ("judge", "labrador: there is no command judge; labrador help names them\n"),
        ("help judge", "labrador: there is no command judge; labrador help names them\n"),
        ("verify --transcipt a", "labrador: verify knows no option --transcipt: did you mean --transcript? labrador verify --help says more\n"),
        ("verify --fast", "labrador: verify knows no option --fast; labrador verify --help says more\n"),
        ("load kapa=3", "labrador: there is no parameter kapa: did you mean kappa? labrador load --help has the names\n"),
    ] {
        let ran = run(&desk, call);
        assert_eq!((ran.status, ran.line.as_str()), (64, told));
    }
}

#[test]
fn the_man_page_has_every_command_and_no_fault() {
    let desk = Desk::new("man");
    let page = run(&desk, "help --man").out;
    assert!(page.is_ascii() && page.starts_with(".TH LABRADOR 1 "), "{page}");
    for (name, _) in commands(&desk) {
        assert!(page.contains(&format!(".SS {}\n", name.replace('-', "\\-"))), "{name}");
    }
    fs::write(desk.path("labrador.1"), &page).unwrap();
    let mut groff = Command::new("groff");
    groff.args(["-man", "-ww", "-Tutf8", "labrador.1"]).current_dir(&desk.folder);
    let Ok(rendered) = groff.output() else {
        return println!("not tried: the man page, since groff is not at hand");
    };
    assert_eq!((rendered.status.code(), String::from_utf8_lossy(&rendered.stderr).as_ref()), (Some(0), ""));
    let text = String::from_utf8_lossy(&rendered.stdout).into_owned();
    assert!(text.contains("with --from: the seed of A to D"), "{text}");
}

/// What bash offers for the last of these words.
fn offered(desk: &Desk, words: &[&str]) -> Vec<String> {
    let quoted: Vec<String> = words.iter().map(|word| format!("'{word}'")).collect();
    let script = format!(
        "source completions && COMP_WORDS=(labrador {}) COMP_CWORD={} && _labrador && printf '%s\\n' \"${{COMPREPLY[@]}}\"",
        quoted.join(" "),
        words.len()
    );
    let output = Command::new("bash").args(["-c", &script]).current_dir(&desk.folder).output().expect("bash");
    assert!(output.stderr.is_empty(), "{}", String::from_utf8_lossy(&output.stderr));
    String::from_utf8(output.stdout).unwrap().lines().map(str::to_string).collect()
}

#[test]
fn bash_completes_commands_options_and_files() {
    let desk = Desk::with("completions", &with_answer(0));
    if Command::new("bash").args(["-c", "true"]).status().is_err() {
        return println!("not tried: the completions, since bash is not at hand");
    }
    fs::write(desk.path("completions"), run(&desk, "help --bash").out).unwrap();
    fs::write(desk.path("a file"), "").unwrap();
    for (words, told) in [
        (&["ver"][..], &["verify", "verify-many"][..]),
        (&["--v"], &["--version"]),
        (&["help", "expl"], &["explain"]),
        (&["verify", "--r"], &["--randomness", "--report", "--reference"]),
        (&["verify", "--job", "j"], &["job"]),
        (&["verify", "--job", "=", "j"], &["job"]),
        (&["describe", "a"], &["a file"]),
        (&["describe", "--as", "t"], &["transcript"]),
        (&["load", "ka"], &["kappa=", "kappa_1=", "kappa_2="]),
        (&["shed-rows", "--first", ""], &[""]),
    ] {
        assert_eq!(offered(&desk, words), told, "{words:?}");
    }
    let all = offered(&desk, &[""]);
    assert!(commands(&desk).iter().all(|(name, _)| all.contains(name)), "{all:?}");
}

#[test]
fn zsh_s_completions_have_every_command() {
    let desk = Desk::new("zsh");
    let told = run(&desk, "help --zsh").out;
    assert!(told.starts_with("#compdef labrador\n"), "{told}");
    for (name, _) in commands(&desk) {
        assert!(told.contains(&format!("\n    {name})\n        _arguments")), "{name}");
    }
    fs::write(desk.path("_labrador"), told).unwrap();
    match Command::new("zsh").args(["-n", "_labrador"]).current_dir(&desk.folder).status() {
        Ok(status) => assert!(status.success()),
        Err(_) => println!("not tried: whether zsh reads its completions, since it is not at hand"),
    }
}

/// An installation under another name has its man page and completions under that name.
#[test]
fn the_pages_are_of_the_name_that_is_called() {
    let desk = Desk::new("called");
    std::os::unix::fs::symlink(BINARY, desk.path("labrador-prime")).unwrap();
    let told = |kind: &str| {
        let output = Command::new(desk.path("labrador-prime")).args(["help", kind]).output().expect("the binary runs");
        String::from_utf8(output.stdout).expect("text")
    };
    assert!(told("--man").contains("\nlabrador\\-prime \\- proves"));
    assert!(told("--bash").ends_with("\ncomplete -F _labrador_prime labrador-prime\n"));
    assert!(told("--zsh").starts_with("#compdef labrador-prime\n"));
}
