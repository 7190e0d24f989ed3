//! A journal's listing by the proved call, held against the model's.

use model::journal::listing;
use model::limits::JOURNAL_EVENTS;

use crate::proved::write_listing;

/// More than any listing has (`model::cases::longest::bound`).
const ROOM: usize = JOURNAL_EVENTS * 87;
/// What a buffer holds before the call; no listing has it.
pub const UNWRITTEN: u8 = 0xa5;

/// A lent buffer that takes any listing.
pub struct Lister {
    buffer: Vec<u8>,
}

impl Default for Lister {
    fn default() -> Lister {
        Lister { buffer: vec![UNWRITTEN; ROOM] }
    }
}

impl Lister {
    /// Compares both listings and gives them back; past its end the buffer is as it was.
    pub fn agreed(&mut self, name: &str, journal: &[u8]) -> String {
        let wanted = listing(journal);
        let (number, length) = write_listing(journal, &mut self.buffer);
        assert_eq!(number, 0, "{name}");
        let (text, rest) = self.buffer.split_at_mut(length);
        assert_same_text(name, text, &wanted);
        assert!(rest.iter().all(|&byte| byte == UNWRITTEN), "{name}: written past the listing");
        text.fill(UNWRITTEN);
        wanted
    }
}

/// Fails on the first line that differs from the model's.
pub fn assert_same_text(name: &str, got: &[u8], wanted: &str) {
    for (got, wanted) in got.split(|&byte| byte == b'\n').zip(wanted.split('\n')) {
        assert_eq!(String::from_utf8_lossy(got), wanted, "{name}");
    }
    assert_eq!(got.len(), wanted.len(), "{name}: bytes of the listing");
}
