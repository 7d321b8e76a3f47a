//! Compares and times the original's `Server` and the one over the proved engine.
//!
//! conformance servers <SCRIPT      sessions of `oracle sessions`, played to both
//! conformance files FOLDER <SCRIPT session files of the proved server, and the records that it handed over
//! conformance replay STDIN STDOUT  stored transcripts, played to the engine's wrapper
//! conformance time ROUNDS          processor time of both
use std::io::{stdin, BufReader};
use std::{env, process};

// The original's modules, by the names that the oracle's files use.
use obex_protocol::{action, auth, error, header, md5, opcode, packet, response, server, srm, tlv};

#[path = "../../../../oracle/src/hex.rs"]
mod hex;
mod leaf;
#[path = "../../../../oracle/src/lines.rs"]
mod lines;
#[path = "../../../../oracle/src/script.rs"]
mod script;
#[path = "../../../../oracle/src/show.rs"]
mod show;
#[path = "../../../../oracle/src/stops.rs"]
mod stops;

mod host;
mod replay;
mod servers;
mod time;

fn main() {
    let words: Vec<String> = env::args().skip(1).collect();
    let words: Vec<&str> = words.iter().map(String::as_str).collect();
    let same = match words[..] {
        ["servers"] => servers::run(BufReader::new(stdin().lock())),
        ["files", folder] => servers::files(BufReader::new(stdin().lock()), folder.as_ref()),
        ["replay", stdin, stdout] => replay::run(stdin, stdout),
        ["time", rounds] => time::run(rounds.parse().unwrap()),
        ["calls"] => time::calls(),
        ["sockets", rounds] => time::sockets(rounds.parse().unwrap()),
        _ => panic!("usage: servers | files FOLDER | replay STDIN STDOUT | time ROUNDS"),
    };
    process::exit(if same { 0 } else { 1 });
}
