//! How a command ends: its exit status, what it prints, and one line in words on standard error. A verdict's line is printed
//! too, unless JSON is.

use std::io::{self, Write};
use std::process::ExitCode;

use labrador::{system, Refusal};

use crate::json::Json;
use crate::shown;

/// The exit statuses.
#[derive(Clone, Copy, Debug, PartialEq, Eq)]
pub enum Status {
    /// Accepted, made, or nothing found but what holds of every job.
    Fine = 0,
    /// A failed check, something found, or under --strict a check that can never fail.
    Failed = 1,
    /// Refused or unfit input.
    Unfit = 2,
    /// The file system failed.
    FileSystem = 3,
    /// The command was called in a way that it does not know.
    Usage = 64,
}

/// The end of a command.
#[derive(Debug)]
pub struct End {
    pub status: Status,
    /// For standard output, unless it is to be JSON.
    pub out: String,
    /// For standard error before the line, a line each.
    pub warnings: Vec<String>,
    /// Nothing is said where it is empty.
    pub line: String,
    /// Whether the line has several lines, each with nothing in it that steers.
    pub several: bool,
    /// Whether the line is a verdict.
    pub judges: bool,
    /// For machines, beside the status and the line.
    pub fields: Vec<(&'static str, Json)>,
}

impl End {
    pub fn new(status: Status, line: impl Into<String>) -> End {
        End {
            status,
            out: String::new(),
            warnings: Vec::new(),
            line: line.into(),
            several: false,
            judges: false,
            fields: Vec::new(),
        }
    }

    /// An end of which several lines are said.
    pub fn of_lines(status: Status, lines: &[String]) -> End {
        let lines: Vec<String> = lines.iter().map(|line| shown::line(line)).collect();
        End { several: true, ..End::new(status, lines.join("\n")) }
    }

    /// The end of a command that judges: its line is printed behind the rest.
    pub fn judging(self) -> End {
        End { judges: true, ..self }
    }

    pub fn printing(mut self, out: String) -> End {
        self.out = out;
        self
    }

    /// Said on standard error, and for machines.
    pub fn warning(mut self, warnings: Vec<String>) -> End {
        self.fields.push(("warnings", Json::List(warnings.iter().map(Json::text).collect())));
        self.warnings = warnings;
        self
    }

    pub fn with(mut self, fields: Vec<(&'static str, Json)>) -> End {
        self.fields.extend(fields);
        self
    }

    fn to_json(&self) -> String {
        let mut fields = vec![("status", Json::Number(self.status as u64)), ("says", Json::text(&self.line))];
        fields.extend(self.fields.iter().cloned());
        format!("{}\n", Json::Object(fields))
    }

    /// What is printed in words.
    fn to_text(&self) -> String {
        match self.judges {
            true => format!("{}{}", self.out, said(&self.line)),
            false => self.out.clone(),
        }
    }

    /// Prints, and gives the exit status.
    pub fn say(self, json: bool) -> ExitCode {
        let printed = print(&if json { self.to_json() } else { shown::lines(&self.to_text()) });
        self.warnings.iter().for_each(|warning| complain(&format!("warning: {warning}")));
        if !self.line.is_empty() && (json || !self.judges) {
            match self.several {
                true => self.line.lines().for_each(complain),
                false => complain(&self.line),
            }
        }
        match printed {
            Ok(()) => ExitCode::from(self.status as u8),
            Err(error) => {
                // a closed reader is not reported
                if error.kind() != io::ErrorKind::BrokenPipe {
                    complain(&format!("standard output: {error}"));
                }
                ExitCode::from(Status::FileSystem as u8)
            }
        }
    }
}

fn print(out: &str) -> io::Result<()> {
    if !out.is_empty() && system::output_is_closed() {
        return Err(io::Error::other("it is closed"));
    }
    let mut stdout = io::stdout().lock();
    stdout.write_all(out.as_bytes())?;
    stdout.flush()
}

/// A line with the program's name before it.
fn said(line: &str) -> String {
    format!("labrador: {}\n", shown::line(line))
}

fn complain(line: &str) {
    // nothing can be said where standard error is closed
    let _ = io::stderr().lock().write_all(said(line).as_bytes());
}

/// A command's end, or an end before it was done.
pub type Outcome = Result<End, End>;

pub fn unfit(line: impl Into<String>) -> End {
    End::new(Status::Unfit, line)
}

/// The end of a refused call: its line, and the refusal's number and place for machines.
pub fn refused(refusal: &Refusal, line: impl Into<String>) -> End {
    let numbers = [("number", refusal.number().into()), ("place", refusal.place())];
    unfit(line).with(numbers.map(|(name, number)| (name, Json::Number(number))).to_vec())
}

pub fn file_system(line: impl Into<String>) -> End {
    End::new(Status::FileSystem, line)
}

pub fn usage(line: impl Into<String>) -> End {
    End::new(Status::Usage, line)
}
