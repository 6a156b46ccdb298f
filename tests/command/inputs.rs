//! Inputs and outputs in memory, and reading and writing whole texts over them.
use std::alloc::Global;
use std::process::Abort;
use web_cli::{
    Input, MemInput, MemOutput, Output, PlainInput, PlainOutput, ReadAnswer, ReadWhole,
    WriteAnswer, read_whole, write_whole,
};

/// Compares what the next calls of an input give into four bytes, through the trait alone.
fn assert_reads<I: Input>(rt: &impl Abort, input: &mut I, expected: &[ReadAnswer]) {
    for answer in expected {
        assert_eq!(rt; input.read(&mut [0u8; 4]), *answer);
    }
}

/// Compares what the next calls of an output take of five bytes, through the trait alone.
fn assert_writes<O: Output>(rt: &impl Abort, output: &mut O, expected: &[WriteAnswer]) {
    for answer in expected {
        assert_eq!(rt; output.write(b"abcde"), *answer);
    }
}

#[test]
fn each_input_gives_its_bytes_and_faults(rt: HostRuntime) {
    assert_reads(
        &rt,
        &mut PlainInput::new(b"abcdef"),
        &[
            ReadAnswer::Bytes(4),
            ReadAnswer::Bytes(2),
            ReadAnswer::End,
            ReadAnswer::End,
        ],
    );
    assert_reads(
        &rt,
        &mut MemInput::new(b"abcdef", 3, &[2]),
        &[
            ReadAnswer::Bytes(3),
            ReadAnswer::Failed,
            ReadAnswer::Bytes(3),
            ReadAnswer::End,
        ],
    );
}

#[test]
fn each_output_takes_bytes_and_gives_faults(rt: HostRuntime) {
    let mut plain = PlainOutput::new(rt.alloc());
    assert_writes(
        &rt,
        &mut plain,
        &[
            WriteAnswer::Wrote(5),
            WriteAnswer::Wrote(5),
            WriteAnswer::Wrote(5),
        ],
    );
    let mut few = MemOutput::new(rt.alloc(), 3, &[2]);
    assert_writes(
        &rt,
        &mut few,
        &[
            WriteAnswer::Wrote(3),
            WriteAnswer::Failed,
            WriteAnswer::Wrote(3),
        ],
    );
    assert!(rt; plain.as_slice() == b"abcdeabcdeabcde".as_slice());
    assert!(rt; few.as_slice() == b"abcabc".as_slice());
}

/// Reads an input that gives four bytes at a time. Returns the bytes, where no call fails.
fn read_all(rt: &impl Abort, alloc: Global, fails_at: &[u64]) -> Option<Vec<u8>> {
    let mut input = MemInput::new(b"abcdef", 4, fails_at);
    match read_whole(alloc, &mut input).expect(rt, "memory") {
        ReadWhole::All(bytes) => Some(bytes.to_vec(alloc).expect(rt, "memory")),
        ReadWhole::TooLong => panic!(rt; "too long"),
        ReadWhole::Failed => None,
    }
}

#[test]
fn a_whole_input_is_read_or_its_fault_is_reported(rt: HostRuntime) {
    let read = read_all(&rt, rt.alloc(), &[]);
    assert_eq!(rt; read.as_deref(), Some(b"abcdef".as_slice()));
    assert!(rt; read_all(&rt, rt.alloc(), &[3]).is_none());
}

#[test]
fn a_whole_text_is_written_or_a_prefix_of_it(rt: HostRuntime) {
    let mut output = MemOutput::new(rt.alloc(), 4, &[4]);
    let written = (
        write_whole(&mut output, b""),
        write_whole(&mut output, b"abcdef"),
        write_whole(&mut output, b"ghijkl"),
    );
    assert_eq!(rt; written, (true, true, false));
    assert!(rt; output.as_slice() == b"abcdefghij".as_slice());
}
