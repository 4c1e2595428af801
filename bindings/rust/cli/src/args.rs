//! The arguments of a command: options with and without a value, and the rest.

use std::ffi::{OsStr, OsString};
use std::os::unix::ffi::OsStrExt;
use std::path::{Path, PathBuf};

use crate::end::{usage, End};
use crate::help::{Command, Opt};
use crate::near::meant;

/// The arguments as the command's list of options reads them.
pub struct Args {
    values: Vec<(&'static str, OsString)>,
    flags: Vec<&'static str>,
    pub rest: Vec<OsString>,
}

/// `--name=value` as its two parts, the value byte for byte.
fn split(argument: &OsStr) -> (String, Option<&OsStr>) {
    let mut parts = argument.as_bytes().splitn(2, |byte| *byte == b'=').map(OsStr::from_bytes);
    (parts.next().unwrap_or_default().to_string_lossy().into_owned(), parts.next())
}

/// A word's number.
pub fn number(text: &OsStr, what: &str) -> Result<u32, End> {
    let shown = text.to_string_lossy();
    shown.parse().map_err(|_| usage(format!("{what} is a number from 0 to 4294967295, not {shown}")))
}

/// That a name is a file's: neither empty nor `-`.
fn named(name: &OsStr) -> Result<(), End> {
    match name.as_bytes() {
        b"" => Err(usage("an empty name is no file's")),
        b"-" => {
            Err(usage("- is no file: standard input and output are not read or written; a file of that name is ./-"))
        }
        _ => Ok(()),
    }
}

/// The value behind an option; one that begins as an option does is taken for a forgotten value.
fn value_behind<'a>(option: &Opt, command: &Command, value: Option<&'a OsString>) -> Result<&'a OsStr, End> {
    let (name, what) = (option.name, option.value);
    let Some(value) = value else {
        return Err(usage(format!("{name} needs {what}; {}", command.hint())));
    };
    if value.as_bytes().starts_with(b"--") {
        let value = value.to_string_lossy();
        let file = if option.takes_file() { format!(" or ./{value}") } else { String::new() };
        return Err(usage(format!("{name} needs {what} before {value}; if that is meant it is {name}={value}{file}")));
    }
    Ok(value)
}

impl Args {
    pub fn parse(command: &Command, arguments: &[OsString]) -> Result<Args, End> {
        let mut args = Args { values: Vec::new(), flags: Vec::new(), rest: Vec::new() };
        let mut left = arguments.iter();
        while let Some(argument) = left.next() {
            if argument == "--" {
                args.rest.extend(left.by_ref().cloned());
            } else if argument.as_bytes().starts_with(b"-") && argument != "-" {
                args.option(command, argument, &mut left)?;
            } else {
                args.rest.push(argument.clone());
            }
        }
        args.rest.iter().try_for_each(|name| named(name))?;
        Ok(args)
    }

    fn option<'a>(
        &mut self,
        command: &Command,
        argument: &OsStr,
        left: &mut impl Iterator<Item = &'a OsString>,
    ) -> Result<(), End> {
        let (name, value) = split(argument);
        let Some(option) = command.options.iter().find(|o| o.name == name) else {
            let meant = meant(&name, command.options.iter().map(|option| option.name));
            return Err(usage(format!("{} knows no option {name}{meant} {}", command.name, command.hint())));
        };
        if self.flags.contains(&option.name) || self.value(option.name).is_some() {
            return Err(usage(format!("{name} is given twice")));
        }
        if option.value.is_empty() {
            self.flags.push(option.name);
            return value.map_or(Ok(()), |_| Err(usage(format!("{name} takes no value"))));
        }
        let value = value.map_or_else(|| value_behind(option, command, left.next()), Ok)?;
        if option.takes_file() {
            named(value)?;
        }
        self.values.push((option.name, value.to_os_string()));
        Ok(())
    }

    pub fn flag(&self, name: &str) -> bool {
        self.flags.contains(&name)
    }

    pub fn value(&self, name: &str) -> Option<&OsStr> {
        self.values.iter().find(|(n, _)| *n == name).map(|(_, value)| value.as_os_str())
    }

    /// The file that an option names.
    pub fn file(&self, name: &str) -> Option<&Path> {
        self.value(name).map(Path::new)
    }

    /// The file that an option must name.
    pub fn needed(&self, command: &Command, name: &str) -> Result<PathBuf, End> {
        match self.file(name) {
            Some(path) => Ok(path.to_path_buf()),
            None => Err(usage(format!("{} needs {name} FILE; {}", command.name, command.hint()))),
        }
    }

    /// The number that an option must give.
    pub fn number(&self, command: &Command, name: &str) -> Result<u32, End> {
        let Some(given) = self.value(name) else {
            return Err(usage(format!("{} needs {name} NUMBER; {}", command.name, command.hint())));
        };
        number(given, name)
    }

    /// No arguments but options.
    pub fn no_rest(&self, command: &Command) -> Result<(), End> {
        match self.rest.first() {
            Some(first) => {
                let first = first.to_string_lossy();
                Err(usage(format!("{} does not take {first}; {}", command.name, command.hint())))
            }
            None => Ok(()),
        }
    }
}
