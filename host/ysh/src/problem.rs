//! What went wrong, in one line: the file, the place, what was expected; and the exit status that goes with it.

use std::fmt;

use yshturpa::Refusal;

use crate::compile::Stopped;
use crate::show::shown;
use crate::strategy::Fault;

/// Bad input (status 2), or a refusal of the library (status 1).
#[derive(Clone, Debug, PartialEq, Eq)]
pub struct Problem {
    pub file: String,
    pub place: String,
    pub text: String,
    pub refusal: Option<Refusal>,
}

impl Problem {
    pub fn input(file: impl Into<String>, place: impl Into<String>, text: impl Into<String>) -> Problem {
        Problem { file: file.into(), place: place.into(), text: text.into(), refusal: None }
    }

    pub fn refused(file: impl Into<String>, refusal: Refusal) -> Problem {
        Problem { file: file.into(), place: String::new(), text: String::new(), refusal: Some(refusal) }
    }

    /// What cannot be read or written, in the system's words.
    pub fn io(file: impl Into<String>, doing: &str, error: &std::io::Error) -> Problem {
        Problem::input(file, "", format!("cannot be {doing}: {error}"))
    }

    pub fn of(file: impl Into<String>, stopped: Stopped) -> Problem {
        let (fault, refusal) = match stopped {
            Stopped::Fault(fault) => (fault, None),
            Stopped::Refused(fault, refusal) => (fault, Some(refusal)),
        };
        Problem { refusal, ..Problem::fault(file, fault) }
    }

    pub fn fault(file: impl Into<String>, fault: Fault) -> Problem {
        Problem::input(file, fault.place, fault.text)
    }

    pub fn status(&self) -> u8 {
        match self.refusal {
            None => 2,
            Some(_) => 1,
        }
    }
}

impl fmt::Display for Problem {
    fn fmt(&self, f: &mut fmt::Formatter) -> fmt::Result {
        let mut parts = vec![self.file.clone(), self.place.clone(), self.text.clone()];
        parts.extend(self.refusal.map(|refusal| match self.text.is_empty() {
            true => format!("{refusal:#}"),
            false => format!("refused {} at {}", refusal.number, refusal.place),
        }));
        parts.retain(|part| !part.is_empty());
        f.write_str(&shown(&parts.join(": ")))
    }
}
