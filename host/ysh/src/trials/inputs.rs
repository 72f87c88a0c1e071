//! What goes into the runs, by name and SHA-256: the same inputs are the same runs, whoever does which of them.

use std::collections::BTreeMap;
use std::fs::File;
use std::io;
use std::path::{Path, PathBuf};

use clap::ValueEnum;
use serde::{Deserialize, Serialize};
use sha2::{Digest, Sha256};

use super::asked::How;
use crate::bars::Form;
use crate::files::name_of;
use crate::holdup::sheet::digest;
use crate::problem::Problem;
use crate::progress;
use crate::settings_file::SettingsFile;
use crate::table::number;

#[derive(Clone, Debug, PartialEq, Eq, Serialize, Deserialize)]
#[serde(deny_unknown_fields)]
pub struct Inputs {
    /// Of all that stands below.
    pub sha256: String,
    /// The arguments that decide what a run comes to, by name.
    pub choices: BTreeMap<String, String>,
    /// By name; the settings beside a table stand with it.
    pub strategies: Vec<Input>,
    pub bars: Vec<Input>,
}

#[derive(Clone, Debug, PartialEq, Eq, Serialize, Deserialize)]
#[serde(deny_unknown_fields)]
pub struct Input {
    pub file: String,
    /// None for a file that cannot be read.
    pub sha256: Option<String>,
    #[serde(default, skip_serializing_if = "Option::is_none")]
    pub settings_sha256: Option<String>,
}

/// Files by their names, each once.
pub type Named = BTreeMap<String, PathBuf>;

pub fn named(paths: impl IntoIterator<Item = PathBuf>) -> Named {
    paths.into_iter().map(|path| (name_of(&path), path)).collect()
}

impl Inputs {
    pub fn of(strategies: &Named, bars: &Named, how: &How) -> Inputs {
        let files: Vec<(&String, &PathBuf)> = strategies.iter().chain(bars).collect();
        let mut all = progress::each(&files, |(name, path)| input(name, path));
        let bars = all.split_off(strategies.len());
        Inputs { sha256: String::new(), choices: choices(how), strategies: all, bars }.sealed()
    }

    fn sealed(self) -> Inputs {
        let open = Inputs { sha256: String::new(), ..self };
        let text = serde_json::to_string(&open).expect("inputs are JSON");
        Inputs { sha256: digest(text.as_bytes()), ..open }
    }

    /// Whether the digest is that of what stands below it.
    pub fn is_sealed(&self) -> bool {
        self.clone().sealed().sha256 == self.sha256
    }

    pub fn runs(&self) -> u64 {
        (self.strategies.len() * self.bars.len()) as u64
    }

    /// The strategy and the bars of a run: by the strategies' names, and for each by those of the bars.
    pub fn files_of(&self, run: u64) -> (&Input, &Input) {
        let bars = self.bars.len();
        (&self.strategies[run as usize / bars], &self.bars[run as usize % bars])
    }

    /// The first thing in which others differ from these, where they do.
    pub fn differ(&self, others: &Inputs) -> Option<String> {
        if self == others {
            return None;
        }
        if self.choices != others.choices {
            let names = self.choices.keys().chain(others.choices.keys());
            let other = |name: &&String| self.choices.get(*name) != others.choices.get(*name);
            return Some(format!("--{} is another", names.into_iter().find(other).map_or("", |name| name)));
        }
        let by_name = |inputs: &Inputs| {
            let all = inputs.strategies.iter().chain(&inputs.bars).cloned();
            all.map(|input| (input.file.clone(), input)).collect::<BTreeMap<_, _>>()
        };
        let (ours, theirs) = (by_name(self), by_name(others));
        let names: std::collections::BTreeSet<&String> = ours.keys().chain(theirs.keys()).collect();
        let told = |name: &&String| match (ours.get(*name), theirs.get(*name)) {
            (Some(one), Some(other)) if one == other => None,
            (Some(_), Some(_)) => Some(format!("{name} is another file")),
            (Some(_), None) => Some(format!("{name} is not among its files")),
            _ => Some(format!("{name} is among its files")),
        };
        Some(names.iter().find_map(told).unwrap_or_else(|| "its files are others".to_owned()))
    }
}

/// The arguments that decide what a run comes to, as they would be given.
fn choices(how: &How) -> BTreeMap<String, String> {
    let on_refusal = how.on_refusal.to_possible_value().map_or(String::new(), |value| value.get_name().to_owned());
    let given = &how.given;
    let flag = |on: bool| on.then(String::new);
    let columns: Vec<String> = how.form.columns.iter().map(|(there, here)| format!("{there}={here}")).collect();
    let usual = Form::default();
    let all = [
        ("on-refusal", Some(on_refusal)),
        ("strict", flag(how.strict)),
        ("columns", (!columns.is_empty()).then(|| columns.join(","))),
        ("delimiter", (how.form.delimiter != usual.delimiter).then(|| char::from(how.form.delimiter).to_string())),
        ("warmup", given.warmup.map(|bars| bars.to_string())),
        ("capital", given.capital.map(number)),
        ("lot", given.lot.map(number)),
        ("absent-short-exit", flag(given.absent_short_exit)),
    ];
    all.into_iter().filter_map(|(name, value)| Some((name.to_owned(), value?))).collect()
}

fn input(name: &str, path: &Path) -> Input {
    let settings = SettingsFile::beside(path);
    Input { file: name.to_owned(), sha256: digest_of(path).ok(), settings_sha256: digest_of(&settings).ok() }
}

/// The SHA-256 of a file of any length.
fn digest_of(path: &Path) -> io::Result<String> {
    let mut hasher = Sha256::new();
    io::copy(&mut File::open(path)?, &mut hasher)?;
    Ok(hasher.finalize().iter().map(|byte| format!("{byte:02x}")).collect())
}

/// What cannot be run so: a file that is named twice, which would be run twice, and standard input, which is read once.
pub fn unfit(paths: &[PathBuf]) -> Option<Problem> {
    if paths.iter().any(|path| path == Path::new("-")) {
        return Some(Problem::input(
            "standard input",
            "",
            "it is read once, and there are many runs; a file was expected",
        ));
    }
    let mut seen = std::collections::BTreeSet::new();
    let again = paths.iter().map(|path| name_of(path)).find(|name| !seen.insert(name.clone()))?;
    Some(Problem::input(again, "", "it is named twice; each file once was expected"))
}

#[cfg(test)]
mod tests {
    use super::*;

    fn inputs() -> Inputs {
        let input = |file: &str, sha: &str| Input {
            file: file.to_owned(),
            sha256: Some(sha.to_owned()),
            settings_sha256: None,
        };
        let bars = vec![input("1.csv", "x"), input("2.csv", "y")];
        Inputs {
            sha256: String::new(),
            choices: BTreeMap::from([("on-refusal".to_owned(), "stop".to_owned())]),
            strategies: vec![input("a.json", "p"), input("b.json", "q"), input("c.json", "r")],
            bars,
        }
        .sealed()
    }

    #[test]
    fn runs_go_by_names() {
        let inputs = inputs();
        let files: Vec<(&str, &str)> =
            (0..inputs.runs()).map(|run| inputs.files_of(run)).map(|(s, b)| (&s.file[..], &b.file[..])).collect();
        assert_eq!((files.len(), files[1], files[4]), (6, ("a.json", "2.csv"), ("c.json", "1.csv")));
    }

    #[test]
    fn what_differs_is_told() {
        let ours = inputs();
        assert!(ours.is_sealed() && ours.differ(&ours).is_none());
        let mut other = ours.clone();
        other.strategies[1].sha256 = None;
        assert!(!other.is_sealed());
        assert_eq!(ours.differ(&other).unwrap(), "b.json is another file");
        let mut other = ours.clone();
        other.bars.pop();
        assert_eq!(ours.differ(&other).unwrap(), "2.csv is not among its files");
        assert_eq!(other.differ(&ours).unwrap(), "2.csv is among its files");
        let mut other = ours.clone();
        other.choices.insert("lot".to_owned(), "1".to_owned());
        assert_eq!(ours.differ(&other).unwrap(), "--lot is another");
    }
}
