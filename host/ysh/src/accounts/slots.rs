//! The slots of a stream: those of all its accounts.

use crate::problem::Problem;
use crate::source::Source;

/// The names of the stream's slots, for accounts that were read by themselves. A table has its slots where it has them, so those of the
/// one that has most come first, and another table's have to be the first of these; a strategy takes its own anywhere.
pub fn of_stream(sources: &[(Source, Vec<String>)]) -> Result<Vec<String>, Problem> {
    let tables = || sources.iter().filter(|(source, _)| source.strategy.is_none());
    let mut slots = tables().map(|(_, names)| names).max_by_key(|names| names.len()).cloned().unwrap_or_default();
    for (source, names) in tables() {
        if !slots.starts_with(names) {
            let text = format!(
                "its slots are {}, and the stream's begin with {}; the first of these were expected",
                names.join(", "),
                slots[..names.len()].join(", ")
            );
            return Err(Problem::input(&source.file, "", text));
        }
    }
    let mut more: Vec<&String> =
        sources.iter().flat_map(|(_, names)| names).filter(|name| !slots.contains(name)).collect();
    more.sort();
    more.dedup();
    let more: Vec<String> = more.into_iter().cloned().collect();
    slots.extend(more);
    Ok(slots)
}
