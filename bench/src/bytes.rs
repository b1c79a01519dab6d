//! How many bytes rpds's maps take: an allocator that counts while it is asked to.
use crate::answers::free_nodes;
use crate::arena::{Arena, Map, Plan};
use crate::revision::Revision;
use library::call::{Answer, Call};
use std::alloc::{GlobalAlloc, Layout, System};
use std::sync::atomic::{AtomicBool, AtomicI64, Ordering::Relaxed};

pub struct Counting;

static COUNTING: AtomicBool = AtomicBool::new(false);
static ASKED: AtomicI64 = AtomicI64::new(0);
static HEAP: AtomicI64 = AtomicI64::new(0);

unsafe extern "C" {
    fn malloc_usable_size(place: *mut u8) -> usize;
}

/// The C library keeps one word of eight bytes before each block.
const BLOCK_HEAD: usize = 8;

// SAFETY: every request goes to the system's allocator as it is; only numbers are kept beside it.
unsafe impl GlobalAlloc for Counting {
    unsafe fn alloc(&self, layout: Layout) -> *mut u8 {
        let place = unsafe { System.alloc(layout) };
        if COUNTING.load(Relaxed) {
            ASKED.fetch_add(layout.size() as i64, Relaxed);
            HEAP.fetch_add((unsafe { malloc_usable_size(place) } + BLOCK_HEAD) as i64, Relaxed);
        }
        place
    }

    unsafe fn dealloc(&self, place: *mut u8, layout: Layout) {
        if COUNTING.load(Relaxed) {
            ASKED.fetch_sub(layout.size() as i64, Relaxed);
            HEAP.fetch_sub((unsafe { malloc_usable_size(place) } + BLOCK_HEAD) as i64, Relaxed);
        }
        unsafe { System.dealloc(place, layout) }
    }
}

/// The bytes asked for and the bytes of the heap that the work left in use.
fn counted<T>(work: impl FnOnce() -> T) -> (T, i64, i64) {
    let before = (ASKED.load(Relaxed), HEAP.load(Relaxed));
    COUNTING.store(true, Relaxed);
    let made = work();
    COUNTING.store(false, Relaxed);
    (made, ASKED.load(Relaxed) - before.0, HEAP.load(Relaxed) - before.1)
}

pub fn table(revisions: &[Revision], sizes: &[usize]) {
    let ours: Vec<String> = revisions.iter().map(|revision| format!("{}, a further version", revision.name)).collect();
    println!(
        "| entries | rpds asked for, an entry | rpds on the heap, an entry | rpds on the heap, a further version | ours, an entry | {} |",
        ours.join(" | ")
    );
    println!("|---|---|---|---|---|{}", "---|".repeat(revisions.len()));
    for entries in sizes {
        let arena = Arena::new(Plan { n: 2047, v: 32, entries: *entries, versions: 1 }, 0);
        let (keys, greatest) = (&arena.keys, *arena.keys.last().expect("entries"));
        let (map, asked, heap) = counted(|| keys.iter().map(|key| (*key, *key)).collect::<Map>());
        let (_further, _, more) = counted(|| map.insert(greatest, 1));
        let ours: Vec<String> =
            revisions.iter().map(|revision| further(revision, &arena, greatest).to_string()).collect();
        println!(
            "| {entries} | {:.0} | {:.0} | {more} | 24 | {} |",
            asked as f64 / *entries as f64,
            heap as f64 / *entries as f64,
            ours.join(" | ")
        );
    }
}

/// The bytes that one more version of the arena takes, in which the greatest key has another value.
fn further(revision: &Revision, arena: &Arena, greatest: u32) -> usize {
    let mut lent = arena.lent.clone();
    let made = Call::Insert { s: arena.newest(), key: greatest, value: 1 };
    let answer = revision.call(&mut lent, made);
    assert!(matches!(answer, Answer::Word(_)), "{made:?} gave {answer:?}");
    24 * (free_nodes(arena.lent.words()) - free_nodes(lent.words())) + 8
}
