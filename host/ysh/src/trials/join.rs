//! Parts of the same runs, joined.

use std::collections::BTreeMap;

use super::document::{Document, Parts};
use crate::problem::Problem;

/// Documents of parts, each with the name of its file, as one.
pub fn joined(read: Vec<(String, Document)>) -> Result<Document, Problem> {
    let mut files: BTreeMap<u64, String> = BTreeMap::new();
    let mut rest = read.into_iter();
    let (first, Document { inputs, parts, mut runs, .. }) = rest.next().expect("a file at least is named");
    parts.done.iter().for_each(|part| drop(files.insert(*part, first.clone())));
    for (name, other) in rest {
        if let Some(differs) = inputs.differ(&other.inputs) {
            return Err(Problem::input(name, "", format!("it belongs to other runs than {first}: {differs}")));
        }
        if other.parts.of != parts.of {
            let text = format!("its part is one of {}, and that of {first} one of {}", other.parts.of, parts.of);
            return Err(Problem::input(name, "", text));
        }
        for part in &other.parts.done {
            if let Some(before) = files.insert(*part, name.clone()) {
                let text = format!("part {part} of {} is in {before} already", parts.of);
                return Err(Problem::input(name, "", text));
            }
        }
        runs.extend(other.runs);
    }
    Document::new(inputs, Parts::new(parts.of, files.into_keys().collect()), runs)
}
