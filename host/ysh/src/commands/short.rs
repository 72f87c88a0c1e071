//! `ysh short`: which tests fall silent in a window of so many rows.

use yshturpa::layout::kind;
use yshturpa::silent;

use super::Answer;
use crate::cli::Short;
use crate::columns::{counted, grouped};
use crate::files::files;
use crate::problem::Problem;
use crate::progress;
use crate::source::Source;
use crate::table::{reach_of, Words};

pub fn answer(asked: &Short) -> Answer {
    let found = match files(&asked.files, asked.recursive) {
        Ok(found) => found,
        Err(problem) => return problem.into(),
    };
    let mut answer = Answer { notes: found.left_out, ..Answer::default() };
    for found in progress::each(&found.files, |path| part(&Source::read(path, &asked.reading)?, asked.rows)) {
        match found {
            Ok(part) => {
                answer.text.push_str(&part.text);
                answer.doubts.extend(part.doubts);
                answer.notes.extend(part.notes);
            }
            Err(problem) => answer.problems.push(problem),
        }
    }
    answer
}

fn part(source: &Source, rows: u64) -> Result<Answer, Problem> {
    let mut answer = Answer::default();
    answer.notes(&source.file, &source.notes);
    answer.doubts(&source.file, &source.doubts);
    let needed = source.size()?.rows;
    let tests = source.forest.nodes.iter().filter(|node| node.is_test()).count() as u64;
    let silent = silent_tests(source, rows)?;
    let head = match silent.len() as u64 {
        0 => "no test falls silent".to_owned(),
        n => format!("{n} of {} {} silent", counted(tests, "test", "tests"), if n == 1 { "falls" } else { "fall" }),
    };
    let (over, needed) = (counted(rows, "row", "rows"), grouped(needed));
    answer.line(format!("{}: over {over} {head} (it needs {needed})", source.file));
    for test in &silent {
        answer.line(format!("  {test}"));
    }
    if let Some(line) = volatility(source, rows) {
        answer.line(format!("  {line}"));
    }
    Ok(answer)
}

/// A test that answers no whatever the bars hold.
#[derive(Clone, Debug, serde::Serialize)]
pub struct Silent {
    pub tree: &'static str,
    pub node: usize,
    pub test: String,
    pub needs_rows: u64,
    /// What its no does under a Not.
    pub turned: bool,
    /// Its place in the strategy; empty for a table.
    pub path: String,
}

impl std::fmt::Display for Silent {
    fn fmt(&self, f: &mut std::fmt::Formatter) -> std::fmt::Result {
        let turned = if self.turned { ", which the Not above it turns into a yes" } else { "" };
        write!(
            f,
            "{} node {}: {} needs {} rows; it answers no{turned}",
            self.tree,
            self.node,
            self.test,
            grouped(self.needs_rows)
        )
    }
}

/// The tests of a table that fall silent over so many rows, as the library lists them.
pub fn silent_tests(source: &Source, rows: u64) -> Result<Vec<Silent>, Problem> {
    let refused = |refusal| source.refused(refusal);
    let forest = &source.forest;
    let words = Words { forest, names: &source.names };
    let mut found = Vec::new();
    for node in silent(&source.table, rows).map_err(refused)? {
        let node = node as usize;
        let nots = forest.path(node).iter().filter(|&&above| forest.nodes[above].kind == kind::NOT).count();
        found.push(Silent {
            tree: forest.tree(node).name(),
            node,
            test: words.whole(node),
            needs_rows: reach_of(forest, node).map_err(refused)? + 1,
            turned: nots % 2 == 1,
            path: source.paths.get(node).cloned().unwrap_or_default(),
        });
    }
    Ok(found)
}

/// What so few rows do to a volatility target.
pub fn volatility(source: &Source, rows: u64) -> Option<String> {
    let lookback = source.lookback;
    let needed = lookback + 1;
    (lookback > 0 && rows < needed).then(|| {
        format!(
            "sizing: a volatility lookback of {} needs {} rows; a box refuses such settings (12 at 1)",
            grouped(lookback),
            grouped(needed)
        )
    })
}
