//! `crates/heights/specs/Height.antt`

/// Height.antt: IsLog
pub fn is_log(n: usize, e: u32) -> bool {
    2usize.pow(e) <= n && n < 2usize.pow(e + 1)
}

/// Height.antt: lgUpTo
pub fn lg_up_to(e: u32, n: usize) -> usize {
    match e {
        0 => 0,
        e => {
            if 2usize.pow(e) <= n {
                e as usize
            } else {
                lg_up_to(e - 1, n)
            }
        }
    }
}

/// Height.antt: lg
pub fn lg(n: usize) -> usize {
    lg_up_to(31, n)
}

/// Height.antt: H
pub fn h(n: usize) -> usize {
    match n {
        0 => 0,
        n => 2 * lg(n + 1),
    }
}

/// Height.antt: insertReserve
pub fn insert_reserve(n: usize) -> usize {
    h(n) + 1
}

/// Height.antt: removeReserve
pub fn remove_reserve(n: usize) -> usize {
    6 * h(n) + 2
}
