//! The oracle: obd2.rs itself, answering histories line by line. oracle/build puts it together: what stands
//! below this file's lines is cut out of the Rust and changed as replacements.txt says (and amendments.txt).
//!
//!     oracle                                 answers the histories on standard input
//!     oracle histories SEED CALLS            writes histories of the box without a refusal
//!     oracle histories SEED CALLS recorder   the same for the recorder

#![allow(dead_code, unused, private_interfaces)]

// Logging is dropped. The macros stand first, since they are seen only below.
macro_rules! debug { ($($t:tt)*) => {{}}; }
macro_rules! info { ($($t:tt)*) => {{}}; }
macro_rules! warn { ($($t:tt)*) => {{}}; }
macro_rules! error { ($($t:tt)*) => {{}}; }

mod chance;
mod driver;
mod frame;
mod handover;
mod histories;
mod history;
mod recorder;
mod texts;
mod words;

use frame::*;
use handover::*;
use std::net::SocketAddr;
use std::sync::atomic::{AtomicBool, AtomicU32, Ordering};
use std::sync::{Arc, Mutex};
use std::time::Duration;

fn main() {
    let args: Vec<String> = std::env::args().skip(1).collect();
    match args.iter().map(String::as_str).collect::<Vec<_>>()[..] {
        [] => answer_lines(),
        ["histories", seed, calls] => histories::write_box(seed, calls),
        ["histories", seed, calls, "recorder"] => histories::write_recorder(seed, calls),
        _ => {
            eprintln!("usage: oracle [histories SEED CALLS [recorder]]");
            std::process::exit(2);
        }
    }
}

/// Answers the lines on standard input: the recorder's words by the recorder, all others by the box.
fn answer_lines() {
    use std::io::{BufRead, Write};
    let mut out = std::io::BufWriter::new(std::io::stdout().lock());
    let (mut oracle, mut recorder) = (driver::Oracle::new(), recorder::Recorder::new(0));
    for line in std::io::stdin().lock().split(b'\n') {
        let line = line.expect("standard input can be read");
        if line.is_empty() || line[0] == b'#' {
            continue;
        }
        let answer = recorder.answer(&line).or_else(|| oracle.answer(&line));
        writeln!(out, "{}", answer.unwrap_or("bad line".into())).expect("standard output can be written");
    }
}
