//! Stands in for a module of the original that was not handed over. `check` never comes here.
use std::io::{Empty, Write, empty};

pub struct ChunkWriter;

impl Write for ChunkWriter {
    fn write(&mut self, _: &[u8]) -> std::io::Result<usize> {
        unreachable!("check uses no pipe")
    }
    fn flush(&mut self) -> std::io::Result<()> {
        unreachable!("check uses no pipe")
    }
}

pub fn pipe() -> (Empty, ChunkWriter) {
    (empty(), ChunkWriter)
}
