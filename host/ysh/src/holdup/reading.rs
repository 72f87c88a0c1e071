//! From what was asked to the answer: each file is read once, and belongs to its box.

use std::path::PathBuf;

use super::against::Against;
use super::asked::Holdup;
use super::boxes::Boxed;
use super::given::{Given, HaveFrom};
use super::pairs::once;
use super::report::{Client, Report};
use super::sheet::Sheet;
use crate::files::files;
use crate::problem::Problem;
use crate::progress;
use crate::source::Source;

/// The files of one box, by the name of the box.
struct Group {
    name: String,
    files: Vec<PathBuf>,
}

#[derive(Default)]
struct Gathered {
    clients: Vec<Client>,
    boxes: Vec<Boxed>,
    problems: Vec<Problem>,
    left_out: Vec<String>,
}

pub fn report(asked: &Holdup, sheet: Sheet) -> Result<Report, Problem> {
    let mut given = Given::of(asked)?;
    let one = |paths: &[PathBuf]| vec![(String::new(), paths.to_vec())];
    let boxes = || asked.boxes.iter().map(|one| (one.name.clone(), one.paths.clone())).collect();
    let mut before = None;
    let named = match (asked.boxes.is_empty(), asked.against.is_empty()) {
        (false, _) => boxes(),
        (true, true) => one(&asked.files),
        (true, false) => {
            before = Some(gathered(asked, &given, one(&asked.files))?);
            one(&asked.against)
        }
    };
    if let (None, Some(before)) = (given.have, before.as_ref().and_then(|before| before.boxes.first())) {
        given.have = Some(before.total);
        given.have_from = HaveFrom::Before;
    }
    let now = gathered(asked, &given, named)?;
    let mut report = Report {
        given,
        clients: now.clients,
        boxes: now.boxes,
        problems: now.problems,
        left_out: now.left_out,
        against: None,
        sheet,
    };
    if let Some(before) = before {
        report.problems.extend(before.problems);
        report.left_out.extend(before.left_out);
        report.against = Some(Against::of(before.clients, &before.boxes, &report.clients));
    }
    Ok(report)
}

fn gathered(asked: &Holdup, given: &Given, named: Vec<(String, Vec<PathBuf>)>) -> Result<Gathered, Problem> {
    let mut all = Gathered::default();
    let mut groups = Vec::new();
    for (name, paths) in named {
        let found = files(&paths, asked.recursive)?;
        all.left_out.extend(found.left_out);
        groups.push(Group { name, files: found.files });
    }
    let paths: Vec<&PathBuf> = groups.iter().flat_map(|group| &group.files).collect();
    let read = |path: &&PathBuf| Client::of(path, Source::read(path, &asked.reading)?, given);
    let mut answers = progress::each(&paths, read).into_iter();
    for group in &groups {
        all.add(group, answers.by_ref().take(group.files.len()).collect(), given);
    }
    Ok(all)
}

impl Gathered {
    fn add(&mut self, group: &Group, answers: Vec<Result<Client, Problem>>, given: &Given) {
        let mut clients = Vec::new();
        let mut missing = 0;
        for answer in answers {
            match answer {
                Ok(client) => clients.push(client),
                Err(problem) => {
                    missing += 1;
                    self.problems.push(problem);
                }
            }
        }
        let (clients, said) = once(clients);
        self.left_out.extend(said);
        let first = self.clients.len();
        self.clients.extend(clients);
        let end = self.clients.len();
        let boxed = |name: &str, range, missing| Boxed::of(name, range, &self.clients, missing, given);
        match given.dumps {
            None => self.boxes.push(boxed(&group.name, first..end, missing)),
            Some(_) => self.boxes.extend((first..end).map(|at| boxed(&self.clients[at].file, at..at + 1, 0))),
        }
    }
}
