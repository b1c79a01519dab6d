//! For readers: the listing, and the shape with a `*` after the colour of each fresh node.
use seen::shape;
use steps::tree::{Entry, Tree, listing};

pub fn print(command: &str, _before: &Tree, after: &Tree) {
    println!("{command}");
    println!("  listing {}", list(&listing(after)));
    println!("  shape   {}", shape(after));
}

fn list(entries: &[Entry]) -> String {
    let pairs: Vec<String> = entries.iter().map(|e| format!("{}:{}", e.key, e.value)).collect();
    format!("[{}]", pairs.join(" "))
}
