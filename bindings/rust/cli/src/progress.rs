//! What is being done, said on a terminal when it takes longer than a second.

use std::io::{self, IsTerminal, Write};
use std::sync::mpsc::{channel, Receiver, RecvTimeoutError, Sender};
use std::thread::JoinHandle;
use std::time::{Duration, Instant};

/// Says nothing where standard error is no terminal.
pub struct Progress {
    steps: Option<Sender<String>>,
    printer: Option<JoinHandle<()>>,
}

const QUIET: Duration = Duration::from_secs(1);

impl Progress {
    pub fn start() -> Progress {
        if !io::stderr().is_terminal() {
            return Progress { steps: None, printer: None };
        }
        let (steps, received) = channel();
        let begun = Instant::now();
        Progress { steps: Some(steps), printer: Some(std::thread::spawn(move || print(&received, begun))) }
    }

    pub fn step(&self, what: impl Into<String>) {
        if let Some(steps) = &self.steps {
            // the printer ends after this sender
            let _ = steps.send(what.into());
        }
    }
}

impl Drop for Progress {
    fn drop(&mut self) {
        self.steps = None;
        if let Some(printer) = self.printer.take() {
            let _ = printer.join();
        }
    }
}

/// Prints the step that is being done after the quiet second, and each one that follows.
fn print(steps: &Receiver<String>, begun: Instant) {
    let mut step: Option<String> = None;
    loop {
        let left = QUIET.saturating_sub(begun.elapsed());
        if left.is_zero() {
            if let Some(what) = step.take() {
                let _ = writeln!(io::stderr().lock(), "labrador: {what}…");
            }
        }
        let wait = if step.is_some() { left } else { Duration::from_secs(3600) };
        match steps.recv_timeout(wait) {
            Ok(what) => step = Some(what),
            Err(RecvTimeoutError::Timeout) => {}
            Err(RecvTimeoutError::Disconnected) => return,
        }
    }
}
