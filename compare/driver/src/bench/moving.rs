//! What moving the rows costs: a step in a full room less one in a room with a place, against memmove over the same bytes.

use std::hint::black_box;

use super::engine;
use super::setup::Size;
use super::timing::{each, nanoseconds, ratio};
use crate::records;

const BLOCK: usize = 200;

/// The time of one memmove of all rows but the oldest to the front of a room of `depth` rows.
fn memmove(depth: usize, slots: usize) -> f64 {
    let width = records::row_words(slots);
    let mut room = vec![1_u64; depth * width];
    each(BLOCK, || {
        for _ in 0..BLOCK {
            black_box(&mut room).copy_within(width.., 0);
        }
    })
}

fn row(size: Size) {
    let (full, with_place) = engine::both_rooms(size);
    let moving = full - with_place;
    let bytes = (size.depth - 1) * records::row_words(size.slots) * 8;
    let memmove = memmove(size.depth, size.slots);
    println!(
        "| {} | {} | {bytes} | {} | {} | {} | {} | {} |",
        size.depth,
        size.slots,
        nanoseconds(full),
        nanoseconds(with_place),
        nanoseconds(moving),
        nanoseconds(memmove),
        ratio(moving, memmove),
    );
}

pub fn bench() {
    println!("## Moving the rows\n");
    println!("Nanoseconds, small table. \"Moving\" is a step in a full room less one in a room with a place.\n");
    println!("| D | K | bytes | full room | room with a place | moving | memmove | moving / memmove |");
    println!("|---|---|---|---|---|---|---|---|");
    for depth in [200, 4_096] {
        for slots in [2, 64] {
            row(Size {
                large: false,
                depth,
                slots,
            });
        }
    }
    println!();
}
