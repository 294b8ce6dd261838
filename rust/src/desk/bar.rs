//! A bar that says how far a list of folders is, on a terminal's standard error.
use std::io::{IsTerminal, Write, stderr};

const WIDTH: usize = 30;
/// The most of a name: a bar that is wider than the terminal could not be taken back.
const NAME: usize = 32;

pub struct Bar {
    total: usize,
    shown: bool,
}

impl Bar {
    /// For so many folders; nothing is shown for one, or where standard error is no terminal.
    pub fn new(total: usize) -> Self {
        Bar { total, shown: total > 1 && stderr().is_terminal() }
    }

    /// `done` are checked, and the next is called `name`. A bar that cannot be written is no reason to stop.
    pub fn show(&self, done: usize, name: &str) {
        if self.shown {
            let _ = write!(stderr(), "\r\x1b[K{}", line(done, self.total, name)).and_then(|()| stderr().flush());
        }
    }

    /// Before something else is written.
    pub fn clear(&self) {
        if self.shown {
            let _ = write!(stderr(), "\r\x1b[K").and_then(|()| stderr().flush());
        }
    }
}

fn line(done: usize, total: usize, name: &str) -> String {
    let full = WIDTH * done / total.max(1);
    let long = name.chars().count().saturating_sub(NAME);
    let name: String = name.chars().skip(long).collect();
    let cut = if long > 0 { "…" } else { "" };
    format!("[{}{}] {done}/{total} {cut}{name}", "#".repeat(full), "-".repeat(WIDTH - full))
}

#[cfg(test)]
mod tests {
    use super::*;

    #[test]
    fn it_fills_up() {
        assert_eq!(line(0, 4, "a"), format!("[{}] 0/4 a", "-".repeat(30)));
        assert_eq!(line(2, 4, "b"), format!("[{}{}] 2/4 b", "#".repeat(15), "-".repeat(15)));
        assert_eq!(line(4, 4, ""), format!("[{}] 4/4 ", "#".repeat(30)));
        assert!(line(1, 4, &"é/".repeat(50)).ends_with(&format!(" …{}", "é/".repeat(16))));
    }
}
