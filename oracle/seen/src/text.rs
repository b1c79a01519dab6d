//! Reads what the derived `Debug` of rpds's map prints, with the addresses that our stand-in for archery adds.
use crate::{Seen, SeenNode};
use steps::tree::{Color, Entry};

/// What is left to be read.
struct Reader<'a> {
    rest: &'a str,
}

/// A map; any text of another form is a panic, as nothing could be compared then.
pub fn read(text: &str) -> Seen {
    let mut reader = Reader { rest: text };
    reader.expect("RedBlackTreeMap { root: ");
    let root = reader.child();
    reader.expect(", size: ");
    let size = reader.number(10);
    reader.expect(" }");
    Seen { root, size }
}

impl Reader<'_> {
    fn take(&mut self, word: &str) -> bool {
        let rest = self.rest.strip_prefix(word);
        self.rest = rest.unwrap_or(self.rest);
        rest.is_some()
    }

    fn expect(&mut self, word: &str) {
        assert!(self.take(word), "rpds's Debug text has no {word:?} where one was looked for");
    }

    fn number(&mut self, radix: u32) -> usize {
        let end = self.rest.find(|c: char| !c.is_digit(radix)).unwrap_or(self.rest.len());
        let (digits, rest) = self.rest.split_at(end);
        self.rest = rest;
        usize::from_str_radix(digits, radix).expect("rpds's Debug text has no number where one was looked for")
    }

    fn small_number(&mut self) -> u32 {
        u32::try_from(self.number(10)).expect("keys and values have 32 bits")
    }

    fn address(&mut self) -> usize {
        self.expect("@");
        let address = self.number(16);
        self.expect(" ");
        address
    }

    fn child(&mut self) -> Option<Box<SeenNode>> {
        if self.take("None") {
            return None;
        }
        self.expect("Some(");
        let node = self.node();
        self.expect(")");
        Some(Box::new(node))
    }

    fn node(&mut self) -> SeenNode {
        let address = self.address();
        self.expect("Node { entry: ");
        let entry = self.entry();
        self.expect(", color: ");
        let color = self.color();
        self.expect(", left: ");
        let left = self.child();
        self.expect(", right: ");
        let right = self.child();
        self.expect(" }");
        SeenNode { address, color, left, entry, right }
    }

    /// Entries have pointers of their own in rpds, shared by copies of a node; their addresses say nothing of nodes.
    fn entry(&mut self) -> Entry {
        self.address();
        self.expect("Entry { key: ");
        let key = self.small_number();
        self.expect(", value: ");
        let value = self.small_number();
        self.expect(" }");
        Entry { key, value }
    }

    fn color(&mut self) -> Color {
        if self.take("Red") {
            return Color::Red;
        }
        self.expect("Black");
        Color::Black
    }
}
