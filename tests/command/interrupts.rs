//! Readers and writers of std whose calls are interrupted by signals.
use std::alloc::Global;
use std::io::{Error, ErrorKind, Read, Result, Write};
use std::process::Abort;
use web_cli::{ReadWhole, StdInput, StdOutput, read_whole, write_whole};

/// A reader or a writer of which each call is interrupted once before it works.
#[derive(Drop)]
struct Interrupted<T> {
    inner: T,
    calls: u64,
}

impl<T> Interrupted<T> {
    /// Counts a call. Each other one fails, the first among them.
    fn count_call(&mut self) -> Result<()> {
        self.calls = self.calls.saturating_add(1);
        if self.calls % 2 == 1 {
            return Err(Error::from(ErrorKind::Interrupted));
        }
        Ok(())
    }
}

impl<T: Read> Read for Interrupted<T> {
    fn read(&mut self, buf: &mut [u8]) -> Result<usize> {
        self.count_call()?;
        self.inner.read(buf)
    }
}

impl<T: Write> Write for Interrupted<T> {
    fn write(&mut self, buf: &[u8]) -> Result<usize> {
        self.count_call()?;
        self.inner.write(buf)
    }

    fn flush(&mut self) -> Result<()> {
        self.inner.flush()
    }
}

/// Reads these bytes through the adapter. Returns them, or `None` where a read fails.
fn read_all(rt: &impl Abort, alloc: Global, bytes: &[u8]) -> Option<Vec<u8>> {
    let reader = Interrupted {
        inner: bytes,
        calls: 0,
    };
    let read = read_whole(alloc, &mut StdInput::new(reader));
    match read.expect(rt, "memory") {
        ReadWhole::All(bytes) => Some(bytes.to_vec(alloc).expect(rt, "memory")),
        ReadWhole::TooLong | ReadWhole::Failed => None,
    }
}

#[test]
fn interrupted_reads_are_tried_again(rt: HostRuntime) {
    let read = read_all(&rt, rt.alloc(), b"abcdef");
    assert_eq!(rt; read.as_deref(), Some(b"abcdef".as_slice()));
}

#[test]
fn interrupted_writes_are_tried_again(rt: HostRuntime) {
    let mut writer = Interrupted {
        inner: Vec::new(rt.alloc()),
        calls: 0,
    };
    let is_written = write_whole(&mut StdOutput::new(&mut writer), b"abcdef");
    assert_eq!(rt;
        (is_written, writer.inner.as_slice()),
        (true, b"abcdef".as_slice())
    );
}
