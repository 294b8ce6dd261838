//! Colours, where somebody looks.
use std::io::{IsTerminal, stdout};

/// Whether to use them.
#[derive(Clone, Copy, Debug)]
pub struct Paint(pub bool);

impl Paint {
    /// On a terminal, unless the variable NO_COLOR asks for none.
    pub fn of_stdout() -> Self {
        let unwanted = std::env::var_os("NO_COLOR").is_some_and(|v| !v.is_empty()) || std::env::var_os("TERM").is_some_and(|t| t == "dumb");
        Paint(stdout().is_terminal() && !unwanted)
    }

    fn with(self, code: &str, text: &str) -> String {
        if self.0 { format!("\x1b[{code}m{text}\x1b[0m") } else { text.to_string() }
    }

    /// What is wrong.
    pub fn error(self, text: &str) -> String {
        self.with("1;31", text)
    }

    /// What is to be read first.
    pub fn strong(self, text: &str) -> String {
        self.with("1", text)
    }

    /// Line numbers and rules beside a text.
    pub fn edge(self, text: &str) -> String {
        self.with("1;34", text)
    }
}
