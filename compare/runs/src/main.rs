//! `runs SEED COUNT`: `ysh run` against the Rust original.
//!
//! Random runs, each written as a table with its settings, as a strategy, and as a file of bars; `ysh run` reads the files, and what it
//! writes has to be the original's to the last bit. The last line sums up; the status is 1 where anything differs.

mod asked;
mod files;
mod ours;
mod theirs;

/// The driver's random cases, and what they name of it. Accounts and their streams are the driver's alone.
#[allow(dead_code)]
#[path = "../../driver/src/cases/mod.rs"]
mod cases;

mod case {
    use oracle::lists::runs::Bar;
    use oracle::table::Table;
    use oracle::Settings;

    pub struct Case {
        pub settings: Settings,
        pub table: Table,
        pub bars: Vec<Bar>,
    }
}

mod compare {
    /// What the driver asks of its own two runs; nothing here.
    #[allow(dead_code)]
    pub struct Plan {
        pub spare: usize,
        pub ask_every: usize,
    }
}

use case::Case;
use files::Written;
use oracle::lists::dice::Dice;
use theirs::Run;

#[derive(Default)]
struct Counts {
    runs: u64,
    strategies: u64,
    no_strategies: u64,
    bars: u64,
    refused: u64,
    trades: u64,
    zeros: u64,
    asked: asked::Counts,
}

fn main() {
    let arguments: Vec<u64> = std::env::args().skip(1).filter_map(|text| text.parse().ok()).collect();
    let &[seed, count] = &arguments[..] else {
        eprintln!("usage: runs SEED COUNT");
        std::process::exit(2)
    };
    let folder = std::env::temp_dir().join(format!("ysh-runs-{}", std::process::id()));
    std::fs::create_dir_all(&folder).expect("a folder for the files");
    let mut counts = Counts::default();
    for number in 0..count {
        let (case, _) = cases::some_case(seed, number);
        let mut dice = Dice::new(seed ^ number << 20);
        if let Err(difference) = compared(&case, &folder, &mut dice, &mut counts) {
            println!(
                "run {number} of seed {seed}: {difference}; its files are in {}",
                folder.display()
            );
            std::process::exit(1)
        }
    }
    let _ = std::fs::remove_dir_all(&folder);
    println!(
        "{} runs of tables and {} of strategies: the same; {} bars, {} of them refused (16), {} trades; {} zeros of the other sign; \
         {} tables are no strategy that the original's validate takes; {}",
        counts.runs, counts.strategies, counts.bars, counts.refused, counts.trades, counts.zeros, counts.no_strategies, counts.asked
    );
}

fn compared(case: &Case, folder: &std::path::Path, dice: &mut Dice, counts: &mut Counts) -> Result<(), String> {
    let written = Written::new(case, folder, dice);
    let theirs = Run::of(case)?;
    let table = ours::run(&[&written.table, &written.bars], &written.folder)?;
    counts.zeros += theirs.differs(&table).map_err(|text| format!("the table: {text}"))?;
    counts.runs += 1;
    counts.bars += case.bars.len() as u64;
    counts.refused += theirs.refused;
    counts.trades += theirs.trades.len() as u64;
    asked::agrees(&written, &theirs, dice, &mut counts.asked)?;
    let Some(strategy) = written.strategy()? else {
        counts.no_strategies += 1;
        return Ok(());
    };
    let (capital, lot) = (
        format!("{:?}", case.settings.capital),
        format!("{:?}", case.settings.lot.abs()),
    );
    let mut arguments = vec![&strategy[..], &written.bars, "--capital", &capital, "--lot", &lot];
    if written.absent_short_exit {
        arguments.push("--absent-short-exit");
    }
    let strategy = ours::run(&arguments, &written.folder)?;
    theirs
        .differs(&strategy)
        .map_err(|text| format!("the strategy: {text}"))?;
    counts.strategies += 1;
    Ok(())
}
