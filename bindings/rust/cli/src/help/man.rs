//! The man page.

use super::{Command, ABOUT, COMMANDS, FILES, LOAD, OTHERS, STATUSES};
use crate::commands::load;

/// Text as roff takes it, in ASCII.
fn roff(text: &str) -> String {
    let mut out = String::new();
    for c in text.chars() {
        match c {
            '\\' => out.push_str("\\e"),
            '-' => out.push_str("\\-"),
            '…' => out.push_str("..."),
            // at the start of a line they begin a request
            '.' | '\'' if out.is_empty() => out.extend(['\\', '&', c]),
            '"' => out.push_str("\\(dq"),
            c if c.is_ascii() => out.push(c),
            c => out += &format!("\\[u{:04X}]", c as u32),
        }
    }
    out
}

/// An entry of a list: what is typed, and what it does.
fn entry(typed: &str, about: &str) -> String {
    format!(".TP\n.B {}\n{}\n", roff(typed), roff(about))
}

fn command(command: &Command) -> String {
    let mut out = format!(".SS {}\n{}\n.PP\n", roff(command.name), roff(command.about));
    out += &format!(".nf\n.B {}\n.fi\n", roff(command.usage));
    out.extend(command.options.iter().map(|option| entry(&option.called(), option.about)));
    if command.name == LOAD.name {
        out += ".PP\nParameters, with the value of one that is not given:\n";
        out.extend(load::parameters_help().iter().map(|(given, meaning)| entry(given, meaning)));
        out += &format!(".PP\n{}\n", roff(load::L_HELP));
    }
    out + &format!(".PP\nExample:\n.PP\n.nf\n{}\n.fi\n", roff(command.example))
}

/// The page under the name by which the program is called.
pub fn page() -> String {
    let (name, version) = (roff(&super::program()), env!("CARGO_PKG_VERSION"));
    let commands: String = COMMANDS.into_iter().map(command).collect();
    let others: String = OTHERS.map(|(call, about)| entry(call, about)).concat();
    let statuses: String = STATUSES.map(|(status, meaning)| entry(&status.to_string(), meaning)).concat();
    format!(
        ".TH {} 1 \"\" \"labrador {version}\" \"LaBRADOR\"\n\
         .SH NAME\n{name} \\- proves, verifies, describes and reviews from the command line\n\
         .SH SYNOPSIS\n.B {name}\n.I COMMAND\n[\\fIARGUMENT\\fR]...\n\
         .SH DESCRIPTION\n{}\n{}\n.SH COMMANDS\n{commands}.SH OTHER CALLS\n{others}.SH EXIT STATUS\n{statuses}",
        name.to_uppercase(),
        roff(ABOUT),
        roff(FILES),
    )
}
