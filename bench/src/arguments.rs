//! A program's arguments. A bad one ends the program with a line that says so and exit status 2.
use std::fs::OpenOptions;
use std::ops::RangeInclusive;

pub struct Arguments {
    usage: &'static str,
    rest: std::env::Args,
}

impl Arguments {
    pub fn new(usage: &'static str) -> Self {
        let mut rest = std::env::args();
        rest.next();
        Arguments { usage, rest }
    }

    /// The next argument as a number within bounds, or its default where there is none.
    pub fn number(&mut self, name: &str, default: u64, bounds: RangeInclusive<u64>) -> u64 {
        let Some(text) = self.rest.next() else { return default };
        match text.parse() {
            Ok(number) if bounds.contains(&number) => number,
            _ => self.refuse(&format!(
                "{name} is to be a number from {} to {}, not '{text}'",
                bounds.start(),
                bounds.end()
            )),
        }
    }

    /// The next argument as a file that can be written; what it holds stays.
    pub fn writable(&mut self, name: &str) -> Option<String> {
        let file = self.rest.next()?;
        match OpenOptions::new().append(true).create(true).open(&file) {
            Ok(_) => Some(file),
            Err(error) => self.refuse(&format!("{name} '{file}' cannot be written: {error}")),
        }
    }

    pub fn end(mut self) {
        if let Some(text) = self.rest.next() {
            self.refuse(&format!("one argument too many: '{text}'"));
        }
    }

    fn refuse(&self, reason: &str) -> ! {
        eprintln!("{reason}; usage: {}", self.usage);
        std::process::exit(2);
    }
}
