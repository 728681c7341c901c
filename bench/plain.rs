//! The plain refinement in Rust, to be measured beside the library: every round composes all pairs
//! of cells through the table of 64 compositions. A static library of one call, for bench.c.

const EQUAL: u8 = 4;
const UNIVERSAL: u8 = 255;
const ACCEPTED: u32 = 0;
const NODE: u32 = 21;
const ARC: u32 = 22;
const PATH: u32 = 23;

static TABLE: [[u8; 8]; 8] = [
    [255, 155, 1, 155, 155, 1, 1, 155],
    [227, 215, 2, 152, 154, 1, 3, 155],
    [1, 2, 4, 8, 16, 32, 64, 128],
    [1, 1, 8, 8, 8, 255, 155, 155],
    [1, 3, 16, 8, 24, 227, 215, 155],
    [227, 224, 32, 252, 224, 32, 32, 224],
    [227, 226, 64, 152, 212, 32, 96, 224],
    [227, 227, 128, 152, 152, 227, 227, 255],
];

fn converse(set: u8) -> u8 {
    set & 135 | (set & 24) << 2 | (set & 96) >> 2
}

fn compose(a: u8, b: u8) -> u8 {
    let mut result = 0;
    for (p, row) in TABLE.iter().enumerate() {
        if a >> p & 1 == 0 {
            continue;
        }
        for (q, set) in row.iter().enumerate() {
            if b >> q & 1 == 1 {
                result |= set;
            }
        }
    }
    result
}

/// The node and arc rules; the number of the contradiction, if there is one.
fn prepare(n: usize, cells: &[u8], area: &mut [u8]) -> u32 {
    area.copy_from_slice(cells);
    for i in 0..n {
        area[i * n + i] &= EQUAL;
        if area[i * n + i] == 0 {
            return NODE;
        }
    }
    for i in 0..n {
        for j in i + 1..n {
            area[i * n + j] &= converse(area[j * n + i]);
            area[j * n + i] = converse(area[i * n + j]);
            if area[i * n + j] == 0 {
                return ARC;
            }
        }
    }
    ACCEPTED
}

/// One round from old to next; whether a cell ran empty.
fn make_round(n: usize, old: &[u8], next: &mut [u8]) -> bool {
    let mut empty = false;
    for i in 0..n {
        for j in 0..n {
            let mut set = UNIVERSAL;
            for k in 0..n {
                set &= compose(old[i * n + k], old[k * n + j]);
            }
            next[i * n + j] = set;
            empty |= set == 0;
        }
    }
    empty
}

fn refine(n: usize, cells: &[u8], first: &mut [u8], second: &mut [u8], rounds: &mut u32) -> u32 {
    *rounds = 0;
    let number = prepare(n, cells, first);
    if number != ACCEPTED {
        return number;
    }
    let (mut old, mut next) = (first, second);
    loop {
        if make_round(n, old, next) {
            *rounds += 1;
            return PATH;
        }
        if old == next {
            return ACCEPTED;
        }
        *rounds += 1;
        std::mem::swap(&mut old, &mut next);
    }
}

/// # Safety
/// The three arrays have n * n bytes and do not overlap; `rounds` may be written.
#[no_mangle]
pub unsafe extern "C" fn rust_refine(
    n: usize,
    cells: *const u8,
    first: *mut u8,
    second: *mut u8,
    rounds: *mut u32,
) -> u32 {
    let cells = std::slice::from_raw_parts(cells, n * n);
    let first = std::slice::from_raw_parts_mut(first, n * n);
    let second = std::slice::from_raw_parts_mut(second, n * n);
    refine(n, cells, first, second, &mut *rounds)
}
