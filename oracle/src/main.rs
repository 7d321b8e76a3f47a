//! Drives the original OBEX server engine, compiled unchanged, so that the port can be
//! compared with it event for event. README.md has the subcommands and their grammars,
//! build.rs what is done to the original before it is compiled.

use std::env;
use std::io::{self, BufReader, BufWriter, Write};
use std::process::ExitCode;

// The original's modules, at the root as in its own crate: action, auth, engine, error,
// header, md5, opcode, packet, response, server, srm, tlv.
include!(concat!(env!("OUT_DIR"), "/original/glue.rs"));

mod ahead;
mod compare;
mod cover;
mod digest;
mod driver;
mod hex;
mod host;
mod leaf;
mod lines;
mod load;
mod queue;
mod rules;
mod script;
mod sessions;
mod show;
mod stops;
mod text;

use lines::{answer_each, Stop};

const USAGE: &str =
    "usage: oracle md5 | md5-speed [MB] | text | leaf | engine [digest=N] [sent=all]
    | sessions SEED COUNT [FIRST] | compare ORIGINAL PORT | cover | load COUNT READ";

/// A run's data can come in hundreds of megabytes.
const BUFFER: usize = 1 << 20;

fn main() -> ExitCode {
    let arguments: Vec<String> = env::args().skip(1).collect();
    let arguments: Vec<&str> = arguments.iter().map(String::as_str).collect();

    let input = BufReader::with_capacity(BUFFER, io::stdin().lock());
    let mut output = BufWriter::with_capacity(BUFFER, io::stdout().lock());

    let result = match arguments[..] {
        ["md5"] => answer_each(input, &mut output, digest::answer),
        ["md5-speed"] => digest::speed(64, &mut output).map_err(Stop::from),
        ["md5-speed", megabytes] => match megabytes.parse() {
            Ok(megabytes) => digest::speed(megabytes, &mut output).map_err(Stop::from),
            Err(_) => return usage(),
        },
        ["text"] => answer_each(input, &mut output, text::answer),
        ["leaf"] => answer_each(input, &mut output, leaf::answer),
        ["engine", ref options @ ..] => match driver::options(options) {
            Some(options) => driver::run(input, &mut output, options),
            None => return usage(),
        },
        ["sessions", ref words @ ..] => match sessions::options(words) {
            Some(options) => sessions::run(options, &mut output).map_err(Stop::from),
            None => return usage(),
        },
        ["compare", original, port] => compare::run(original, port, &mut output),
        ["cover"] => cover::run(input, &mut output),
        ["load", count, longest] => match (count.parse(), longest.parse()) {
            (Ok(count), Ok(longest)) => {
                load::run(input, &mut output, count, longest).map_err(Stop::from)
            }
            _ => return usage(),
        },
        _ => return usage(),
    };

    // What was answered before a bad line is still given.
    match output.flush().map_err(Stop::from).and(result) {
        Ok(()) => ExitCode::SUCCESS,
        Err(Stop::Io(error)) if error.kind() == io::ErrorKind::BrokenPipe => ExitCode::SUCCESS,
        Err(Stop::Io(error)) => {
            eprintln!("oracle: {error}");
            ExitCode::from(1)
        }
        Err(Stop::Different) => ExitCode::from(1),
        Err(Stop::BadLine(number, text)) => {
            eprintln!("bad line {number}: {text}");
            ExitCode::from(2)
        }
    }
}

fn usage() -> ExitCode {
    eprintln!("{USAGE}");
    ExitCode::from(2)
}
