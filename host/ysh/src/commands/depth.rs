//! `ysh depth`: a line a file.

use yshturpa::Refusal;

use super::Answer;
use crate::cli::Depth;
use crate::columns::{columns, counted, grouped, Side};
use crate::files::files;
use crate::problem::Problem;
use crate::progress;
use crate::source::Source;
use crate::table::{deepest, Deepest, Words};

pub fn answer(asked: &Depth) -> Answer {
    let found = match files(&asked.files, asked.recursive) {
        Ok(found) => found,
        Err(problem) => return problem.into(),
    };
    let mut answer = Answer { notes: found.left_out, ..Answer::default() };
    let mut rows = Vec::new();
    let mut slots = false;
    for read in progress::each(&found.files, |path| Source::read(path, &asked.reading).and_then(|s| Ok((row(&s)?, s))))
    {
        match read {
            Ok((row, source)) => {
                answer.notes(&source.file, &source.notes);
                answer.doubts(&source.file, &source.doubts);
                slots |= source.forest.slots > 0;
                rows.push(row);
            }
            Err(problem) => answer.problems.push(problem),
        }
    }
    let right = Side::Right;
    let heads = [("file", Side::Left), ("D", right), ("K", right), ("window B", right), ("dump B", right)];
    if !rows.is_empty() {
        columns(&[&heads[..], &[("what makes it that deep", Side::Left)]].concat(), &rows)
            .iter()
            .for_each(|l| answer.line(l));
    }
    if slots {
        answer.line(format!("\n{NOT_IN_D}"));
    }
    answer
}

/// What a window of D rows is not.
pub const NOT_IN_D: &str = "D holds what rules read back. The values of indicators are handed in with each bar: a box that works an \
    indicator out itself has to save that indicator's own memory too, and D does not count it (an SMA over 50 bars needs 50 \
    closes, though a rule over it may have D 2).";

fn row(source: &Source) -> Result<Vec<String>, Problem> {
    let size = source.size()?;
    let numbers = [size.rows, size.slots, size.window, size.dump].map(grouped);
    let why = why(source).map_err(|refusal| source.refused(refusal))?;
    let mark = if source.unknown_sizing() { " (sizing not known)" } else { "" };
    Ok([vec![format!("{}{mark}", source.file)], numbers.to_vec(), vec![why]].concat())
}

/// What makes a window as deep as it is: a way of nodes, or the volatility lookback where that asks for more rows than the rules.
pub fn why(source: &Source) -> Result<String, Refusal> {
    let ways = deepest(&source.forest)?;
    let words = Words { forest: &source.forest, names: &source.names };
    let way = ways.iter().fold(None, |most: Option<&Deepest>, way| match most {
        Some(most) if most.reach >= way.reach => Some(most),
        _ => Some(way),
    });
    let reach = way.map_or(0, |way| way.reach);
    if let Some(rows) = source.more_rows() {
        let needed = 1 + reach.max(source.lookback);
        return Ok(format!(
            "the settings beside it say {}; {} would do",
            grouped(rows),
            counted(needed, "row", "rows")
        ));
    }
    if source.lookback > reach {
        let rules = counted(reach, "bar", "bars");
        return Ok(format!("volatility lookback {}; the rules reach {rules} back", grouped(source.lookback)));
    }
    Ok(match way {
        Some(way) if reach > 0 => format!("{}: {}", way.tree.name(), words.way(&way.path)),
        _ => "no rule looks behind the newest bar".to_owned(),
    })
}
