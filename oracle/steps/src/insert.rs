//! `crates/trees/specs/Insert.antt`
use crate::lookup::has;
use crate::tree::Color::{Black, Red};
use crate::tree::Place::Fresh;
use crate::tree::{Entry, Tree, en, is_black, is_red, lf, node, paint, rt};

/// Insert.antt: risen
pub fn risen(a: Tree, x: Entry, b: Tree, y: Entry, c: Tree, z: Entry, d: Tree) -> Tree {
    node(Fresh, Red, node(Fresh, Black, a, x, b), y, node(Fresh, Black, c, z, d))
}

/// Insert.antt: balance
pub fn balance(t: &Tree) -> Tree {
    let l = &lf(t);
    let r = &rt(t);
    if !is_black(t) {
        t.clone()
    } else if is_red(l) && is_red(&lf(l)) {
        risen(lf(&lf(l)), en(&lf(l)), rt(&lf(l)), en(l), rt(l), en(t), r.clone())
    } else if is_red(l) && is_red(&rt(l)) {
        risen(lf(l), en(l), lf(&rt(l)), en(&rt(l)), rt(&rt(l)), en(t), r.clone())
    } else if is_red(r) && is_red(&lf(r)) {
        risen(l.clone(), en(t), lf(&lf(r)), en(&lf(r)), rt(&lf(r)), en(r), rt(r))
    } else if is_red(r) && is_red(&rt(r)) {
        risen(l.clone(), en(t), lf(r), en(r), lf(&rt(r)), en(&rt(r)), rt(&rt(r)))
    } else {
        t.clone()
    }
}

/// Insert.antt: settle
pub fn settle(present: bool, t: Tree) -> Tree {
    if present { t } else { balance(&t) }
}

/// Insert.antt: ins
pub fn ins(x: Entry, t: &Tree) -> Tree {
    let Tree::Node(n) = t else {
        return node(Fresh, Red, Tree::Leaf, x, Tree::Leaf);
    };
    let (c, l, e, r) = (n.color, &n.left, n.entry, &n.right);
    if x.key < e.key {
        settle(has(x.key, l), node(Fresh, c, ins(x, l), e, r.clone()))
    } else if e.key < x.key {
        settle(has(x.key, r), node(Fresh, c, l.clone(), e, ins(x, r)))
    } else {
        node(Fresh, c, l.clone(), x, r.clone())
    }
}

/// Insert.antt: insert
pub fn insert(x: Entry, t: &Tree) -> Tree {
    paint(Black, &ins(x, t))
}
