//! The words of a refused open, with their meaning.

use std::fmt;

/// An extended status word of a refused open (general status 0x01, connection failure).
///
/// After 0x0109 a second word follows: the size that would have passed. It is a number and has no meaning here.
#[derive(Clone, Copy, Debug, PartialEq, Eq, Hash, PartialOrd, Ord)]
pub struct Word(pub u16);

/// Every word that an open can be refused with, the rules that give it (docs/RULES.md), and its meaning.
const MEANINGS: [(u16, &str, &str); 14] = [
    (0x0100, "6.10", "connection in use: the triad of serial, vendor and originator has a connection"),
    (0x0103, "6.1", "transport class and trigger not supported: not class 1, or the server bit is set"),
    (0x0106, "6.11", "ownership conflict: the output assembly has an owner"),
    (
        0x0108,
        "6.7 or 6.12",
        "invalid network connection parameter: O→T not point-to-point, T→O neither that nor multicast, or listen-only and not multicast",
    ),
    (0x0109, "6.5, 6.8 or 6.9", "invalid connection size; the size that fits follows"),
    (0x0111, "6.6", "RPI not supported: outside the range of the setup"),
    (0x0113, "6.13", "out of connections: the table is full"),
    (0x0114, "6.3", "vendor or product code mismatch in the electronic key"),
    (0x0115, "6.3", "device type mismatch in the electronic key"),
    (0x0116, "6.3", "revision mismatch in the electronic key"),
    (
        0x0117,
        "6.4",
        "invalid application path: class 4 and two or three instances and points are wanted, of an assembly or heartbeat for O→T and an input assembly for T→O",
    ),
    (0x0118, "6.5", "invalid configuration path: configuration data without a configuration assembly"),
    (0x0119, "6.12", "the controlling connection is not open: listen-only without a stream to join"),
    (0x0315, "6.2", "invalid segment in the path: it does not parse, or holds a port or attribute segment"),
];

impl Word {
    /// What the word means; None for a word that no check gives.
    pub fn meaning(self) -> Option<&'static str> {
        let at = MEANINGS.binary_search_by_key(&self.0, |(word, ..)| *word);
        at.ok().map(|i| MEANINGS[i].2)
    }

    /// The rules that give the word (docs/RULES.md), as a text such as `"6.5, 6.8 or 6.9"`.
    pub fn rules(self) -> Option<&'static str> {
        let at = MEANINGS.binary_search_by_key(&self.0, |(word, ..)| *word);
        at.ok().map(|i| MEANINGS[i].1)
    }

    /// Every word that an open can be refused with, in ascending order.
    pub fn all() -> impl Iterator<Item = Word> {
        MEANINGS.iter().map(|(word, ..)| Word(*word))
    }
}

impl fmt::Display for Word {
    fn fmt(&self, f: &mut fmt::Formatter<'_>) -> fmt::Result {
        match self.meaning() {
            Some(meaning) => write!(f, "0x{:04X} {meaning}", self.0),
            None => write!(f, "0x{:04X}", self.0),
        }
    }
}
