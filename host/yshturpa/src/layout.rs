//! The widths, limits and numbers of include/yshturpa.h. Each is said here once; everything else cites its name.

/// Words of the settings, and the word that says which optional ones are given.
pub const SETTING_WORDS: usize = 32;
pub const GIVEN: usize = 31;

/// Words of the state, of an equity point, of a trade and of the metrics.
pub const STATE_WORDS: usize = 22;
pub const POINT_WORDS: usize = 2;
pub const TRADE_WORDS: usize = 10;
pub const METRIC_WORDS: usize = 9;
/// A block of closes: how many closes, and its words.
pub const BLOCK_BARS: usize = 64;
pub const BLOCK_WORDS: usize = 4;

/// Words of exact totals.
pub const TOTAL_WORDS: usize = 43;

/// Words of a line that tells of a difference between two runs.
pub const DIFFERENCE_WORDS: usize = 5;

/// Words of a stream, and of the status of an account on it.
pub const STREAM_WORDS: usize = 2;
pub const STATUS_WORDS: usize = 3;

/// Words of a line that says why, and as many lines as there may be.
pub const WHY_WORDS: usize = 8;
pub const WHY_LINES: usize = 32;

/// Words of a position, where one is asked for each of many rows.
pub const POSITION_WORDS: usize = 4;

/// Bytes of a dump's header.
pub const DUMP_HEADER: usize = 256;

/// Words of a kept row, and of a bar as it is handed over, besides their slots.
pub const ROW_FIXED: usize = 7;
pub const BAR_FIXED: usize = 10;

/// Bytes of a table's header, of a node, of a step, and of the largest table.
pub const HEADER_BYTES: usize = 16;
pub const NODE_BYTES: usize = 16;
pub const STEP_BYTES: usize = 16;
pub const TABLE_BYTES: usize = HEADER_BYTES + NODE_BYTES * MOST_NODES;

/// Room for the steps of a tree, in bytes a node.
pub const STEP_ROOM: usize = 64;

pub const MOST_SLOTS: usize = 64;
pub const MOST_NODES: usize = 256;
pub const MOST_NESTING: usize = 32;
pub const MOST_DEPTH: usize = 4096;
pub const MOST_REACH: usize = 4095;

/// The mark and the version that a table begins with; the second version is for those with Highest or Lowest.
pub const MARK: [u8; 3] = *b"RTB";
pub const VERSION: u16 = 1;
pub const SECOND_VERSION: u16 = 2;

/// Settings, by number: the place of refusal 12, and the word that holds them.
pub mod setting {
    pub const SLOTS: usize = 0;
    pub const DEPTH: usize = 1;
    pub const CAPITAL: usize = 2;
    pub const WARMUP: usize = 3;
    pub const DELAY: usize = 4;
    pub const SIZING_KIND: usize = 5;
    pub const SIZING_VALUE: usize = 6;
    pub const LOOKBACK: usize = 7;
    pub const TAKER_BPS: usize = 8;
    pub const SLIPPAGE_KIND: usize = 9;
    pub const SLIPPAGE_VALUE: usize = 10;
    pub const FUNDING: usize = 11;
    pub const STOP_LOSS: usize = 12;
    pub const TRAILING_STOP: usize = 13;
    pub const TAKE_PROFIT: usize = 14;
    pub const MAX_LEVERAGE: usize = 15;
    pub const MAX_POSITION: usize = 16;
    pub const LIQUIDATION: usize = 17;
    pub const PARTIAL_FILLS: usize = 18;
    pub const PARTICIPATION: usize = 19;
    pub const ENTRY_KIND: usize = 20;
    pub const LEVEL_PCT: usize = 21;
    pub const LIMIT_PCT: usize = 22;
    pub const MAKER_BPS: usize = 23;
    pub const LOT: usize = 24;

    /// What each is called; a number beyond these is spare.
    pub const NAMES: [&str; 25] = [
        "slots (K)",
        "depth (D)",
        "capital",
        "warmup",
        "delay",
        "kind of sizing",
        "value of sizing",
        "volatility lookback",
        "taker fee",
        "kind of slippage",
        "value of slippage",
        "funding",
        "stop loss",
        "trailing stop",
        "take profit",
        "max leverage",
        "max position",
        "liquidation",
        "partial fills",
        "participation",
        "order kind of an entry",
        "level of an entry",
        "limit of a stop-limit",
        "maker fee",
        "lot",
    ];
}

/// Words of the state.
pub mod state {
    pub const BARS_SEEN: usize = 0;
    pub const ROWS_HELD: usize = 1;
    pub const EQUITY_POINTS: usize = 2;
    pub const TRADES: usize = 3;
    pub const ORDER: usize = 4;
    pub const ORDER_DELAY: usize = 5;
    pub const ENTERED: usize = 6;
    pub const ENTRY_BAR: usize = 7;
    pub const CASH: usize = 8;
    pub const QTY: usize = 9;
    pub const ENTRY_PRICE: usize = 10;
    pub const ENTRY_TIME: usize = 11;
    pub const ENTRY_FEE: usize = 12;
    pub const FEES_PAID: usize = 13;
    pub const EXTREME: usize = 14;
    pub const LAST_TIME: usize = 15;
    pub const LAST_CLOSE: usize = 16;
    pub const ORDER_KIND: usize = 17;
    pub const ORDER_LEVEL: usize = 18;
    pub const ORDER_LIMIT: usize = 19;
    pub const OPEN_FUNDING: usize = 20;
    pub const OPEN_WORST: usize = 21;
}

/// Rooms, by number: the place of refusal 10.
pub mod room {
    pub const ROWS: u32 = 0;
    pub const CLOSES: u32 = 12;
    pub const BLOCKS: u32 = 13;
    pub const DIFFERENCES: u32 = 15;
    pub const STREAM: u32 = 16;
    pub const STATUS: u32 = 17;
    pub const SILENT: u32 = 18;
    pub const COUNTS: u32 = 19;

    /// What each is called.
    pub const NAMES: [(u32, &str); 20] = [
        (ROWS, "rows"),
        (1, "equity"),
        (2, "trades"),
        (3, "steps of the entry"),
        (4, "steps of the exit"),
        (5, "steps of the short entry"),
        (6, "steps of the short exit"),
        (7, "settings"),
        (8, "state"),
        (9, "metrics"),
        (10, "lines that say why"),
        (11, "totals"),
        (CLOSES, "closes"),
        (BLOCKS, "blocks"),
        (14, "the dump"),
        (DIFFERENCES, "lines of what differs"),
        (STREAM, "the stream"),
        (STATUS, "the status of an account"),
        (SILENT, "silent tests"),
        (COUNTS, "counts of lines"),
    ];
}

/// The words of a stream.
pub mod stream {
    pub const SLOTS: usize = 0;
    pub const BARS: usize = 1;
}

/// The words of the status of an account.
pub mod status {
    pub const NUMBER: usize = 0;
    pub const PLACE: usize = 1;
    pub const BAR: usize = 2;
}

/// The kinds of a node.
pub mod kind {
    pub const CONST: u8 = 1;
    pub const REF: u8 = 2;
    pub const PRICE: u8 = 3;
    pub const PREV: u8 = 4;
    pub const ADD: u8 = 5;
    pub const SUB: u8 = 6;
    pub const MUL: u8 = 7;
    pub const DIV: u8 = 8;
    /// In tables of version 2.
    pub const HIGHEST: u8 = 9;
    pub const LOWEST: u8 = 10;
    pub const GT: u8 = 16;
    pub const LT: u8 = 17;
    pub const GE: u8 = 18;
    pub const LE: u8 = 19;
    pub const EQ: u8 = 20;
    pub const NE: u8 = 21;
    pub const CROSS_ABOVE: u8 = 22;
    pub const CROSS_BELOW: u8 = 23;
    pub const BETWEEN: u8 = 24;
    pub const RISING: u8 = 25;
    pub const FALLING: u8 = 26;
    pub const ALL: u8 = 27;
    pub const ANY: u8 = 28;
    pub const NOT: u8 = 29;
    pub const IN_POSITION: u8 = 30;
    pub const BARS_SINCE_ENTRY: u8 = 31;
}
