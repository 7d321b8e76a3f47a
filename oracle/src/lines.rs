//! The line-oriented input that every subcommand reads to its end.

use std::io::{self, BufRead, Write};

/// Why a subcommand stopped before the end of its input.
pub enum Stop {
    /// The line with this number does not follow the subcommand's grammar.
    BadLine(usize, String),
    /// Two transcripts are not the same; how has been printed.
    Different,
    Io(io::Error),
}

impl From<io::Error> for Stop {
    fn from(error: io::Error) -> Stop {
        Stop::Io(error)
    }
}

/// The lines of an input, counted from 1.
pub struct Lines<R> {
    input: R,
    text: String,
    number: usize,
}

impl<R: BufRead> Lines<R> {
    pub fn new(input: R) -> Lines<R> {
        Lines {
            input,
            text: String::new(),
            number: 0,
        }
    }

    /// Reads the next line, without its end; `false` at the end of the input.
    pub fn advance(&mut self) -> Result<bool, Stop> {
        self.text.clear();
        self.number += 1;

        match self.input.read_line(&mut self.text) {
            Ok(0) => Ok(false),
            Ok(_) => {
                self.text
                    .truncate(self.text.trim_end_matches(['\n', '\r']).len());
                Ok(true)
            }
            Err(error) if error.kind() == io::ErrorKind::InvalidData => {
                Err(Stop::BadLine(self.number, "not UTF-8".to_string()))
            }
            Err(error) => Err(error.into()),
        }
    }

    /// The line that was read last.
    pub fn text(&self) -> &str {
        &self.text
    }

    /// The complaint about the line that was read last.
    pub fn bad(&self) -> Stop {
        let mut shown: String = self.text.chars().take(100).collect();
        if shown.len() < self.text.len() {
            shown.push_str("...");
        }
        Stop::BadLine(self.number, shown)
    }
}

/// Answers each line of `input` with one line made by `answer`, which gives `None` for
/// a line that it cannot read.
pub fn answer_each(
    input: impl BufRead,
    output: &mut impl Write,
    answer: impl Fn(&str, &mut Vec<u8>) -> Option<()>,
) -> Result<(), Stop> {
    let mut lines = Lines::new(input);
    let mut line = Vec::new();

    while lines.advance()? {
        line.clear();
        answer(lines.text(), &mut line).ok_or_else(|| lines.bad())?;
        line.push(b'\n');
        output.write_all(&line)?;
    }

    Ok(())
}
