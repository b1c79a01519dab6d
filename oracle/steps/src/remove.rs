//! `crates/trees/specs/Remove.antt`
use crate::insert::balance;
use crate::lookup::has;
use crate::tree::Color::{Black, Red};
use crate::tree::Place::Fresh;
use crate::tree::{Color, Entry, Node, Tree, copy, en, is_black, is_red, lf, node, paint, rt};

/// Remove.antt: removeBalance
pub fn remove_balance(t: &Tree) -> Tree {
    if is_red(&lf(t)) && is_red(&rt(t)) {
        node(Fresh, Red, paint(Black, &lf(t)), en(t), paint(Black, &rt(t)))
    } else {
        balance(t)
    }
}

/// Remove.antt: turnLeft
pub fn turn_left(l: &Tree, e: Entry, r: &Tree) -> Tree {
    let s = remove_balance(&node(Fresh, Black, rt(&lf(r)), en(r), paint(Red, &rt(r))));
    node(Fresh, Red, node(Fresh, Black, l.clone(), e, lf(&lf(r))), en(&lf(r)), s)
}

/// Remove.antt: removeBalanceLeft
pub fn remove_balance_left(l: &Tree, e: Entry, r: &Tree) -> Tree {
    if is_red(l) {
        node(Fresh, Red, paint(Black, l), e, r.clone())
    } else if is_black(r) {
        remove_balance(&node(Fresh, Black, l.clone(), e, paint(Red, r)))
    } else if is_red(r) && is_black(&lf(r)) {
        turn_left(l, e, r)
    } else {
        node(Fresh, Red, l.clone(), e, r.clone())
    }
}

/// Remove.antt: turnRight
pub fn turn_right(l: &Tree, e: Entry, r: &Tree) -> Tree {
    let s = remove_balance(&node(Fresh, Black, paint(Red, &lf(l)), en(l), lf(&rt(l))));
    node(Fresh, Red, s, en(&rt(l)), node(Fresh, Black, rt(&rt(l)), e, r.clone()))
}

/// Remove.antt: removeBalanceRight
pub fn remove_balance_right(l: &Tree, e: Entry, r: &Tree) -> Tree {
    if is_red(r) {
        node(Fresh, Red, l.clone(), e, paint(Black, r))
    } else if is_black(l) {
        remove_balance(&node(Fresh, Black, paint(Red, l), e, r.clone()))
    } else if is_red(l) && is_black(&rt(l)) {
        turn_right(l, e, r)
    } else {
        node(Fresh, Red, l.clone(), e, r.clone())
    }
}

/// Remove.antt: join
pub fn join(c: Color, ll: &Tree, le: Entry, f: &Tree, re: Entry, rr: &Tree) -> Tree {
    if is_red(f) {
        node(Fresh, Red, node(Fresh, c, ll.clone(), le, lf(f)), en(f), node(Fresh, c, rt(f), re, rr.clone()))
    } else {
        match c {
            Red => node(Fresh, Red, ll.clone(), le, node(Fresh, Red, f.clone(), re, rr.clone())),
            Black => remove_balance_left(ll, le, &node(Fresh, Black, f.clone(), re, rr.clone())),
        }
    }
}

/// Remove.antt: fuseNode, `left` being the node on the left: its colour, left child, entry and right child.
pub fn fuse_node(left: &Node, g: &dyn Fn(&Tree) -> Tree, right: &Tree) -> Tree {
    let (c, ll, le, lr) = (left.color, &left.left, left.entry, &left.right);
    let Tree::Node(r) = right else {
        return node(Fresh, c, ll.clone(), le, lr.clone());
    };
    let (rl, re, rr) = (&r.left, r.entry, &r.right);
    match (c, r.color) {
        (Black, Red) => node(Fresh, Red, fuse_node(left, g, rl), re, rr.clone()),
        (Red, Black) => node(Fresh, Red, ll.clone(), le, g(right)),
        (Red, Red) => join(Red, ll, le, &g(rl), re, rr),
        (Black, Black) => join(Black, ll, le, &g(rl), re, rr),
    }
}

/// Remove.antt: fuse
pub fn fuse(l: &Tree, r: &Tree) -> Tree {
    match l {
        Tree::Leaf => copy(r),
        Tree::Node(left) => fuse_node(left, &|t| fuse(&left.right, t), r),
    }
}

/// Remove.antt: delLeft
pub fn del_left(l: &Tree, d: Tree, e: Entry, r: &Tree) -> Tree {
    if is_black(l) { remove_balance_left(&d, e, r) } else { node(Fresh, Red, d, e, r.clone()) }
}

/// Remove.antt: delRight
pub fn del_right(l: &Tree, e: Entry, r: &Tree, d: Tree) -> Tree {
    if is_black(r) { remove_balance_right(l, e, &d) } else { node(Fresh, Red, l.clone(), e, d) }
}

/// Remove.antt: del
pub fn del(k: u32, t: &Tree) -> Tree {
    let Tree::Node(n) = t else { return Tree::Leaf };
    let (l, e, r) = (&n.left, n.entry, &n.right);
    if k < e.key {
        del_left(l, del(k, l), e, r)
    } else if e.key < k {
        del_right(l, e, r, del(k, r))
    } else {
        fuse(l, r)
    }
}

/// Remove.antt: remove
pub fn remove(k: u32, t: &Tree) -> Tree {
    if has(k, t) { paint(Black, &del(k, t)) } else { t.clone() }
}
