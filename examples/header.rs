//! A study's header as received, as imported and as sent, each a version of its own; what changed
//! between them, tag by tag; and going back gives the received header.
//!
//! The value stored at a tag is the position of the tag's value in a file. Import sets two tags,
//! sending cuts two. examples/header.c is the same in C, and both write examples/header.stdout.
use foamcorbel::{tag, Arena, Difference, Entry, Refusal, Slot};

const NODES: u32 = 200;
const SLOTS: u32 = 8;

const RECEIVED: [Entry; 6] = [
    Entry {
        key: tag(0x0008, 0x0060),
        value: 340,
    }, // Modality
    Entry {
        key: tag(0x0010, 0x0010),
        value: 612,
    }, // Patient's Name
    Entry {
        key: tag(0x0010, 0x0020),
        value: 640,
    }, // Patient ID
    Entry {
        key: tag(0x0020, 0x000d),
        value: 904,
    }, // Study Instance UID
    Entry {
        key: tag(0x0028, 0x1052),
        value: 1310,
    }, // Rescale Intercept
    Entry {
        key: tag(0x0028, 0x1053),
        value: 1322,
    }, // Rescale Slope
];

/// The version of the slot with the tag set, in the place of that version.
fn set(arena: &mut Arena, slot: Slot, tag: u32, position: u32) -> Result<Slot, Refusal> {
    let next = arena.insert(slot, tag, position)?;
    arena.release(slot)?;
    Ok(next)
}

/// The same without the tag.
fn cut(arena: &mut Arena, slot: Slot, tag: u32) -> Result<Slot, Refusal> {
    let next = arena.remove(slot, tag)?;
    arena.release(slot)?;
    Ok(next)
}

fn receive(arena: &mut Arena) -> Result<Slot, Refusal> {
    let mut slot = arena.new_version()?;
    for entry in RECEIVED {
        slot = set(arena, slot, entry.key, entry.value)?;
    }
    Ok(slot)
}

/// Starts from a second slot for the received version, which so stays as it was.
fn import(arena: &mut Arena, received: Slot) -> Result<Slot, Refusal> {
    let slot = arena.hold(received)?;
    let slot = set(arena, slot, tag(0x0010, 0x0020), 7000)?;
    set(arena, slot, tag(0x0012, 0x0062), 7020)
}

fn send(arena: &mut Arena, imported: Slot) -> Result<Slot, Refusal> {
    let slot = arena.hold(imported)?;
    let slot = cut(arena, slot, tag(0x0010, 0x0010))?;
    cut(arena, slot, tag(0x0028, 0x1053))
}

fn yes_or_no(b: bool) -> &'static str {
    if b {
        "yes"
    } else {
        "no"
    }
}

fn show(name: &str, arena: &Arena, slot: Slot) -> Result<(), Refusal> {
    println!(
        "{name}: {} tags, rescale mark {}",
        arena.size(slot)?,
        yes_or_no(arena.rescale_mark(slot)?)
    );
    for Entry { key, value } in arena.range(slot, ..)? {
        println!("  ({:04x},{:04x}) at {value}", key >> 16, key & 0xffff);
    }
    Ok(())
}

/// A tag that differs between two states of the header, which have these names.
fn show_change(from: &str, to: &str, change: Difference) {
    let key = change.key();
    print!("  ({:04x},{:04x}) ", key >> 16, key & 0xffff);
    match change {
        Difference::OnlyFirst(entry) => println!("only in {from}, at position {}", entry.value),
        Difference::OnlySecond(entry) => println!("only in {to}, at position {}", entry.value),
        Difference::InBoth {
            first_value,
            second_value,
            ..
        } => println!("changed from position {first_value} to position {second_value}"),
    }
}

fn show_changes(arena: &Arena, from: (&str, Slot), to: (&str, Slot)) -> Result<(), Refusal> {
    println!("what changed from {} to {}:", from.0, to.0);
    for change in arena.differences(from.1, to.1)? {
        show_change(from.0, to.0, change);
    }
    Ok(())
}

fn main() -> Result<(), Refusal> {
    let mut words = [0; Arena::words_for(NODES, SLOTS)];
    let mut arena = Arena::format(&mut words, NODES, SLOTS)?;
    let received = receive(&mut arena)?;
    let imported = import(&mut arena, received)?;
    let sent = send(&mut arena, imported)?;
    show("received", &arena, received)?;
    show("imported", &arena, imported)?;
    show("sent", &arena, sent)?;
    show_changes(&arena, ("received", received), ("imported", imported))?;
    show_changes(&arena, ("received", received), ("sent", sent))?;

    println!(
        "sent equals received: {}",
        yes_or_no(arena.equal(received, sent)?)
    );
    arena.release(sent)?;
    arena.release(imported)?;
    show("going back", &arena, received)?;
    let as_received = arena.range(received, ..)?.eq(RECEIVED);
    println!(
        "going back gives the received header: {}",
        yes_or_no(as_received)
    );
    println!("free nodes: {} of {NODES}", arena.free_nodes()?);
    assert!(as_received);
    Ok(())
}
