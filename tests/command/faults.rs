//! Runs in which each call of the input or of the output fails in turn, and runs that leave the
//! input unread.
use crate::commands::{SERVE, assert_run, run_words};
use std::alloc::Global;
use std::process::Abort;
use web_cli::{Input, MemInput, MemOutput, PlainInput, PlainOutput, ReadAnswer, Status};

/// A script of one exchange, of 35 bytes.
const SCRIPT: &str = "exchange POST /bytes\ntext a\nplan 0\n";

/// What is written for it.
const REPLIES: &str = "exchange 0\nstatus 200\ncontent-type: application/octet-stream\n\
    body text a\npool\nmade 1\n";

/// Serves the script two bytes at a time, with a fault at one call of the input.
fn assert_read_fault(rt: &impl Abort, alloc: Global, call: u64) {
    let fails_at = [call];
    let mut input = MemInput::new(SCRIPT.as_bytes(), 2, &fails_at);
    let mut output = PlainOutput::new(alloc);
    let found = run_words(rt, alloc, SERVE, &mut input, &mut output);
    // 18 calls give the bytes, and the next one their end.
    let (status, text) = if call <= 19 {
        (Status::ReadFault, "")
    } else {
        (Status::Done, REPLIES)
    };
    let is_text = output.as_slice() == text.as_bytes();
    assert_run(rt, "a read fails", (found, is_text), status);
}

#[test]
fn nothing_is_written_where_a_read_fails(rt: HostRuntime) {
    for call in 1..21u64 {
        assert_read_fault(&rt, rt.alloc(), call);
    }
}

/// Arguments, a script, the status where no write fails, and the text that is written then.
const RUNS: &[(&[&str], &str, Status, &str)] = &[
    (SERVE, SCRIPT, Status::Done, REPLIES),
    (
        SERVE,
        "exchange POST *\nstall 1\n",
        Status::Script,
        "line 2: bad mark\n",
    ),
    (
        &["serve"],
        "",
        Status::Usage,
        "usage: serve --pool=N | generate SEED COUNT | replay SEED COUNT | http1 --pool=N\n",
    ),
    (
        &["generate", "231", "1"],
        "",
        Status::Done,
        "exchange POST /bytes\ntext v\nstall\ntext 212\nplan 0\nplan 0\n",
    ),
    (
        &["replay", "1", "1"],
        "",
        Status::Done,
        "script 118\nexchanges 1\nunfinished 0\nstatus 200 1\nmade 1\n",
    ),
];

/// Runs a command whose output takes one byte at a time and fails after so many. Compares the
/// status and the bytes that were written.
fn assert_write_fault(
    rt: &impl Abort,
    alloc: Global,
    arguments: &[&str],
    script: &str,
    status: Status,
    written: &[u8],
) {
    let fails_at = [(written.len() as u64).saturating_add(1)];
    let mut input = PlainInput::new(script.as_bytes());
    let mut output = MemOutput::new(alloc, 1, &fails_at);
    let found = run_words(rt, alloc, arguments, &mut input, &mut output);
    let is_text = output.as_slice() == written;
    assert_run(rt, "a write fails", (found, is_text), status);
}

#[test]
fn a_prefix_is_written_where_a_write_fails(rt: HostRuntime) {
    for (arguments, script, status, text) in RUNS {
        let bytes = text.as_bytes();
        for sent in 0..bytes.len() {
            let written = &bytes[..sent];
            assert_write_fault(
                &rt,
                rt.alloc(),
                arguments,
                script,
                Status::WriteFault,
                written,
            );
        }
        assert_write_fault(&rt, rt.alloc(), arguments, script, *status, bytes);
    }
}

/// Arguments of a run that reads nothing, and its status.
const UNREAD: &[(&[&str], Status)] = &[
    (&[], Status::Usage),
    (&["serve"], Status::Usage),
    (&["serve", "--pool=0", "x"], Status::Usage),
    (&["generate", "1"], Status::Usage),
    (&["generate", "1", "1"], Status::Done),
    (&["replay", "1", "1"], Status::Done),
];

/// Runs these arguments. Asserts the status, and that nothing was read.
fn assert_unread(rt: &impl Abort, alloc: Global, arguments: &[&str], status: Status) {
    let mut input = MemInput::new(b"ab", 3, &[]);
    let mut output = PlainOutput::new(alloc);
    let found = run_words(rt, alloc, arguments, &mut input, &mut output);
    let is_left = input.read(&mut [0u8; 4]) == ReadAnswer::Bytes(2);
    assert_run(rt, "a run that reads nothing", (found, is_left), status);
}

#[test]
fn all_but_serving_leaves_the_input(rt: HostRuntime) {
    for (arguments, status) in UNREAD {
        assert_unread(&rt, rt.alloc(), arguments, *status);
    }
}
