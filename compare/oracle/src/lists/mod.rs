//! The stored lists: what each is made of. `oracle gen NAME SEED` writes one; compare/vectors/make writes them all.

pub mod dice;
mod figures;
mod leaves;
pub mod orders;
mod rules;
pub mod runs;
pub mod trees;

/// The lines of a list, or nothing where there is no list of that name.
pub fn list(name: &str, seed: u64) -> Option<Vec<String>> {
    let lines = match name {
        "root" => figures::root(seed),
        "metrics" => figures::metrics(seed),
        "size" => leaves::size(seed),
        "vol" => leaves::vol(seed),
        "vol_longest" => leaves::vol_longest(seed),
        "slip" => leaves::slip(seed),
        "entry" => leaves::entry(seed),
        "exit" => leaves::exit(seed),
        "intrabar" => leaves::intrabar(seed),
        "portfolio" => leaves::portfolio_list(seed),
        "rule" => rules::rule(seed),
        "runs" => runs::runs(seed),
        "orders" => orders::orders(seed),
        "run_long" => runs::run_long(seed),
        "differences" => runs::differences(),
        _ => return None,
    };
    Some(lines)
}
