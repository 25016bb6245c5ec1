//! The minimum spanning forest of a small network in memory, printed as `boruvka` prints it.
//!
//! With the static library of a PREFIX that it is installed under:
//!
//!     rustc --edition 2024 -L PREFIX/lib forest.rs
//!     ./forest
use std::ffi::c_char;

/// `struct boruvka_link`.
#[repr(C)]
#[derive(Clone, Copy)]
struct Link {
    weight: i64,
    low: u32,
    high: u32,
}

/// `struct boruvka_merge`.
#[repr(C)]
#[derive(Clone, Debug, Default, PartialEq)]
struct Merge {
    first: u32,
    second: u32,
    size: u32,
}

/// `struct boruvka_sum`.
#[repr(C)]
struct Sum {
    high: i64,
    low: u64,
}

#[link(name = "boruvka", kind = "static")]
unsafe extern "C" {
    fn boruvka_forest(n: u32, links: *mut Link, m: usize) -> i64;
    fn boruvka_places_in(
        n: u32, base: u32, u: *const u32, u_count: usize, v: *const u32, v_count: usize, w: *const i64, w_count: usize,
        places: *mut u32, room: usize,
    ) -> i64;
    fn boruvka_labels_in(links: *const Link, k: usize, label: *mut u32, n: usize) -> i64;
    fn boruvka_merges_in(n: u32, links: *const Link, k: usize, merges: *mut Merge, room: usize) -> i64;
    fn boruvka_total(links: *const Link, k: usize, total: *mut Sum);
    fn boruvka_fault_text(kind: i64, into: *mut c_char, room: usize) -> usize;
}

/// Finds the forest of `links` and returns it. It overwrites the first links.
fn forest(n: u32, links: &mut [Link]) -> Result<&[Link], String> {
    // SAFETY: a slice's pointer isn't null, is aligned, and is valid for its length. Nothing else accesses the links meanwhile.
    let answer = unsafe { boruvka_forest(n, links.as_mut_ptr(), links.len()) };
    Ok(&links[..count_of(answer)?])
}

/// Returns the indices of the forest's edges. Edge i joins `u[i]` and `v[i]` and weighs `w[i]`; vertices begin at `base`.
fn places(n: u32, base: u32, u: &[u32], v: &[u32], w: &[i64]) -> Result<Vec<u32>, String> {
    let mut places = vec![0; u.len().min(n.saturating_sub(1) as usize)];
    // SAFETY: as above. The shared slices are only read, and the vector that is written is owned here.
    let answer = unsafe {
        boruvka_places_in(
            n, base, u.as_ptr(), u.len(), v.as_ptr(), v.len(), w.as_ptr(), w.len(), places.as_mut_ptr(), places.len(),
        )
    };
    places.truncate(count_of(answer)?);
    Ok(places)
}

/// Returns the least vertex of each vertex's component, from vertex 1 on. The links contain no cycle.
fn labels(n: u32, links: &[Link]) -> Result<Vec<u32>, String> {
    let mut labels = vec![0; n as usize];
    // SAFETY: as above.
    let answer = unsafe { boruvka_labels_in(links.as_ptr(), links.len(), labels.as_mut_ptr(), labels.len()) };
    count_of(answer)?;
    Ok(labels)
}

/// Returns which two clusters each link merges, and the size of the new one. The points are the clusters 0 to n - 1.
fn merges(n: u32, links: &[Link]) -> Result<Vec<Merge>, String> {
    let mut merges = vec![Merge::default(); links.len()];
    // SAFETY: as above.
    let answer = unsafe { boruvka_merges_in(n, links.as_ptr(), links.len(), merges.as_mut_ptr(), merges.len()) };
    count_of(answer)?;
    Ok(merges)
}

/// Returns the sum of the links' weights.
fn total(links: &[Link]) -> i128 {
    let mut sum = Sum { high: 0, low: 0 };
    // SAFETY: as above.
    unsafe { boruvka_total(links.as_ptr(), links.len(), &mut sum) };
    (i128::from(sum.high) << 64) + i128::from(sum.low)
}

/// Returns the count that a call returned, or the text of its error.
fn count_of(answer: i64) -> Result<usize, String> {
    usize::try_from(answer).map_err(|_| fault_text(answer))
}

fn fault_text(kind: i64) -> String {
    let mut text = [0u8; 64];
    // SAFETY: the pointer is valid for the length that is passed with it.
    let length = unsafe { boruvka_fault_text(kind, text.as_mut_ptr().cast(), text.len()) };
    String::from_utf8_lossy(&text[..length.min(text.len())]).into_owned()
}

fn run() -> Result<(), String> {
    let network = [(17, 1, 2), (10, 1, 3), (2, 2, 4), (0, 3, 5), (0, 4, 3), (3, 4, 6), (0, 5, 2), (20, 5, 6)];
    let mut links = network.map(|(weight, low, high)| Link { weight, low, high });
    let found = forest(6, &mut links)?;
    println!("p sp 6 {}", found.len());
    for link in found {
        println!("a {} {} {}", link.low, link.high, link.weight);
    }
    // the same network in columns, and the other calls on its forest
    let (u, v, w) = (network.map(|it| it.1), network.map(|it| it.2), network.map(|it| it.0));
    assert_eq!(places(6, 1, &u, &v, &w)?, [6, 4, 3, 5, 1]);
    assert_eq!(labels(6, &found[..3])?, [1, 2, 2, 2, 2, 6]);
    let rows = [(1, 4, 2), (2, 3, 2), (6, 7, 4), (5, 8, 5), (0, 9, 6)];
    assert_eq!(merges(6, found)?, rows.map(|(first, second, size)| Merge { first, second, size }));
    assert_eq!(total(found), 13);
    Ok(())
}

fn main() {
    if let Err(text) = run() {
        eprintln!("forest: {text}");
        std::process::exit(1);
    }
}
