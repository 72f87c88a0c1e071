//! What can be seen of a run after a bar, as words, whichever side it comes from.

/// What each word of a view is.
pub const NAMES: [&str; 33] = [
    "bars seen",
    "equity points",
    "trades",
    "point time",
    "equity",
    "order",
    "order delay",
    "order kind",
    "order level",
    "order limit",
    "entered",
    "entry bar",
    "cash",
    "qty",
    "entry price",
    "entry time",
    "entry fee",
    "fees paid",
    "extreme",
    "last time",
    "last close",
    "funding",
    "worst",
    "trade entry time",
    "trade exit time",
    "trade entry price",
    "trade exit price",
    "trade qty",
    "trade pnl",
    "trade return",
    "trade reason",
    "trade funding",
    "trade worst",
];

/// Those that the Rust as it stands has not.
pub const NOT_THE_RUSTS: [&str; 4] = ["funding", "worst", "trade funding", "trade worst"];

/// What each word of the metrics is.
pub const METRICS: [&str; 9] = [
    "pnl",
    "return_pct",
    "sharpe",
    "sortino",
    "calmar",
    "max_drawdown",
    "win_rate",
    "profit_factor",
    "num_trades",
];

#[derive(Debug, Clone, Copy, PartialEq, Eq)]
pub struct View(pub [u64; NAMES.len()]);

/// A word that is not the same on the two sides.
#[derive(Debug, Clone)]
pub struct Unlike {
    pub what: &'static str,
    pub ours: u64,
    pub theirs: u64,
}

impl Unlike {
    /// Whether the two are zeros of unlike sign.
    pub fn is_a_sign_of_zero(&self) -> bool {
        self.ours << 1 == 0 && self.theirs << 1 == 0
    }
}

impl View {
    pub fn of(parts: &[&[u64]]) -> Self {
        Self(parts.concat().try_into().expect("as many words as names"))
    }

    pub fn word(&self, name: &str) -> u64 {
        let at = NAMES.iter().position(|n| *n == name).expect("a word of a view");
        self.0[at]
    }

    pub fn float(&self, name: &str) -> f64 {
        f64::from_bits(self.word(name))
    }

    /// Whether the account counts as being in a position.
    pub fn in_position(&self) -> bool {
        self.float("qty").abs() > f64::EPSILON
    }
}

/// The words in which two lists of the same length differ, under their names.
pub fn unlike(names: &[&'static str], ours: &[u64], theirs: &[u64]) -> Vec<Unlike> {
    let pairs = names.iter().zip(ours.iter().zip(theirs));
    let differing = pairs.filter(|(_, (ours, theirs))| ours != theirs);
    differing
        .map(|(what, (&ours, &theirs))| Unlike { what, ours, theirs })
        .collect()
}
