//! A plain tree of keys and colours, with the demands on it.

pub enum Tree {
    Leaf,
    Node(Box<Node>),
}

pub struct Node {
    black: bool,
    left: Tree,
    key: u32,
    right: Tree,
}

impl Tree {
    pub fn node(black: bool, left: Tree, key: u32, right: Tree) -> Tree {
        Tree::Node(Box::new(Node { black, left, key, right }))
    }

    pub fn is_red(&self) -> bool {
        matches!(self, Tree::Node(n) if !n.black)
    }

    /// The keys in listing order.
    pub fn keys(&self) -> Vec<u32> {
        let mut keys = Vec::new();
        self.list(&mut keys);
        keys
    }

    fn list(&self, keys: &mut Vec<u32>) {
        if let Tree::Node(n) = self {
            n.left.list(keys);
            keys.push(n.key);
            n.right.list(keys);
        }
    }

    pub fn no_red_below_red(&self) -> bool {
        let Tree::Node(n) = self else { return true };
        let here = n.black || !(n.left.is_red() || n.right.is_red());
        here && n.left.no_red_below_red() && n.right.no_red_below_red()
    }

    /// The black nodes on the ways to a missing child, if they are equally many on all.
    pub fn black_alike(&self) -> Option<u32> {
        let Tree::Node(n) = self else { return Some(0) };
        let (left, right) = (n.left.black_alike()?, n.right.black_alike()?);
        (left == right).then_some(left + u32::from(n.black))
    }
}
