//! The record of the session, in two files.

use jalwedd::record::Line;
use std::fs::{self, File};
use std::io::{self, BufWriter, Write};

/// Where calls are recorded, if anywhere.
#[derive(Default)]
pub struct Recorder {
    calls: Option<BufWriter<File>>,
    /// The first write that failed: nothing is written after it.
    failed: Option<io::Error>,
}

impl Recorder {
    /// Calls go to the file of this name, and the command to NAME.sh.
    pub fn begin(name: &str, command: &str) -> io::Result<Recorder> {
        fs::write(format!("{name}.sh"), command)?;
        Ok(Recorder { calls: Some(BufWriter::new(File::create(name)?)), failed: None })
    }

    pub fn write(&mut self, line: &Line<'_>) {
        if let (Some(calls), None) = (&mut self.calls, &self.failed) {
            self.failed = write!(calls, "{line}").err();
        }
    }

    /// Tells whether all was written.
    pub fn end(&mut self) -> io::Result<()> {
        match (self.failed.take(), &mut self.calls) {
            (Some(failed), _) => Err(failed),
            (None, Some(calls)) => calls.flush(),
            (None, None) => Ok(()),
        }
    }
}
