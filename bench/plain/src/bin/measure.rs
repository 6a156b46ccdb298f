//! Runs a program once, and prints its status, its processor time in microseconds and its peak memory in kilobytes.
//!
//! usage: measure INPUT OUTPUT PROGRAM WORD..
//!
//! It is small itself, so what it reports as the peak is the program's own.
use std::fs::File;
use std::process::{Command, ExitCode, Stdio};

/// `struct rusage` of 64-bit Linux: two times of seconds and microseconds, and fourteen counts.
#[repr(C)]
struct Usage([i64; 18]);

const CHILDREN: i32 = -1;
/// Where the peak memory stands, in kilobytes.
const PEAK: usize = 4;

unsafe extern "C" {
    fn getrusage(who: i32, usage: *mut Usage) -> i32;
}

fn main() -> ExitCode {
    let words: Vec<String> = std::env::args().skip(1).collect();
    let [input, output, program, rest @ ..] = words.as_slice() else {
        eprintln!("usage: measure INPUT OUTPUT PROGRAM WORD..");
        return ExitCode::from(64);
    };
    let status = Command::new(program)
        .args(rest)
        .stdin(Stdio::from(File::open(input).expect("the input opens")))
        .stdout(Stdio::from(
            File::create(output).expect("the output is made"),
        ))
        .status()
        .expect("the program starts");
    let mut usage = Usage([0; 18]);
    // SAFETY: `usage` is as large as the structure that the call fills.
    let answer = unsafe { getrusage(CHILDREN, &mut usage) };
    assert_eq!(answer, 0, "the measures of the child are known");
    let times = &usage.0;
    let micros = (times[0] + times[2]) * 1_000_000 + times[1] + times[3];
    println!("{} {} {}", status.code().unwrap_or(-1), micros, times[PEAK]);
    ExitCode::SUCCESS
}
