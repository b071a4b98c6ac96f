//! Text that is made in memory.

use crate::server::Server;
use crate::sums::Sums;
use std::io::Write;

/// The bytes of a report.
#[derive(Default)]
pub struct Text {
    bytes: Vec<u8>,
}

impl Text {
    pub fn bytes(&self) -> &[u8] {
        &self.bytes
    }

    pub fn word(&mut self, word: &[u8]) {
        self.bytes.extend_from_slice(word);
    }

    pub fn number(&mut self, number: u64) {
        write!(self.bytes, "{number}").expect("a vector takes all bytes");
    }

    pub fn end_line(&mut self) {
        self.bytes.push(b'\n');
    }

    /// A word that ends with `=` or a space, and its number.
    pub fn pair(&mut self, word: &[u8], number: u32) {
        self.word(word);
        self.number(number.into());
    }

    pub fn server(&mut self, server: Server) {
        self.pair(b"q=", server.budget);
        self.pair(b" d=", server.deadline);
    }

    /// What a reading answers, to the end of its line.
    pub fn sums(&mut self, sums: Sums) {
        self.pair(b"running=", sums.running);
        self.pair(b" this=", sums.this);
        self.end_line();
    }
}
