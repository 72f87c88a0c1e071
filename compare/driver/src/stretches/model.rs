//! Request 10 once more: what is refused, and what a plain loop over the closes gives.

/// Bars of a block, and its words.
const BLOCK_BARS: u64 = 64;
const BLOCK_WORDS: u64 = 4;
const MOST_COUNT: u64 = 4_294_967_295;

fn refusal(number: u64, place: u64) -> u64 {
    number << 32 | place
}

/// The words that so many blocks take.
pub fn block_words(bars: u64) -> u64 {
    BLOCK_WORDS * bars.div_ceil(BLOCK_BARS)
}

/// Where the block of a bar begins in its room.
pub fn block_at(bar: u64) -> usize {
    (BLOCK_WORDS * (bar / BLOCK_BARS)) as usize
}

/// What an append answers.
pub fn append(held: u64, close: u64, closes: usize, blocks: usize) -> u64 {
    if held >= closes as u64 || held >= MOST_COUNT {
        refusal(10, 12)
    } else if (blocks as u64) < block_words(held + 1) {
        refusal(10, 13)
    } else if !f64::from_bits(close).is_finite() {
        refusal(11, held)
    } else {
        0
    }
}

/// What a question answers.
pub fn stretch(held: u64, first: u64, last: u64, closes: usize, blocks: usize) -> u64 {
    if held > MOST_COUNT || held > closes as u64 || block_words(held) > blocks as u64 {
        refusal(13, 0)
    } else if first > last || last >= held {
        refusal(18, 0)
    } else {
        0
    }
}

/// High, its first bar, low, its first bar, by reading every close.
pub fn plain_loop(closes: &[u64], first: usize, last: usize) -> [u64; 4] {
    let (mut high, mut low) = (first, first);
    let close = |bar: usize| f64::from_bits(closes[bar]);
    for bar in first + 1..=last {
        if close(bar) > close(high) {
            high = bar;
        }
        if close(bar) < close(low) {
            low = bar;
        }
    }
    [closes[high], high as u64, closes[low], low as u64]
}
