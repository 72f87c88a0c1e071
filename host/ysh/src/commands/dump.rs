//! `ysh dump`: images of runs.

use yshturpa::{Engine, Image};

use super::{run, Answer};
use crate::bars::{over, Nothing, Seen, Way};
use crate::columns::{counted, grouped};
use crate::dump::asked::{Cut, Dump, Resume, Show, Take, Which};
use crate::dump::words;
use crate::files::name_of;
use crate::output::Outputs;
use crate::problem::Problem;
use crate::run::outcome::Outcome;
use crate::run::Ready;
use crate::why::moment::not_there;
use crate::why::place::find;

pub fn answer(asked: &Dump) -> Answer {
    let answered = match &asked.which {
        Which::Show(asked) => show(asked),
        Which::Take(asked) => take(asked),
        Which::Resume(asked) => resume(asked),
        Which::Cut(asked) => cut(asked),
    };
    answered.unwrap_or_else(Answer::from)
}

fn bytes_of(path: &std::path::Path) -> Result<Vec<u8>, Problem> {
    std::fs::read(path).map_err(|error| {
        let problem = Problem::io(name_of(path), "read", &error);
        Problem { text: format!("{}; an image was expected", problem.text), ..problem }
    })
}

/// An image that is refused, with what its bytes tell of why.
fn refused(file: &str, image: &[u8], refusal: yshturpa::Refusal) -> Problem {
    let text = if refusal.number == 19 { words::fault(image) } else { String::new() };
    Problem { text, ..Problem::refused(file, refusal) }
}

fn show(asked: &Show) -> Result<Answer, Problem> {
    let (file, bytes) = (name_of(&asked.image), bytes_of(&asked.image)?);
    let image = Image::of(&bytes).map_err(|refusal| refused(&file, &bytes, refusal))?;
    let mut answer = Answer::default();
    words::image(&image, bytes.len()).iter().for_each(|line| answer.line(line));
    Ok(answer)
}

fn take(asked: &Take) -> Result<Answer, Problem> {
    let ready = Ready::kept(&asked.over)?;
    let mut notes = ready.notes();
    let Ready { source, bars, mut engine, .. } = ready;
    let found = find(asked.at, &bars)?;
    notes.extend(found.said);
    // Of bars with the same time the last: what the box had seen when that time was over.
    let place = *found.at.last().expect("a bar was found");
    let way = Way { on_refusal: asked.over.on_refusal, after: None, until: Some(place) };
    let walked = over(&bars, &mut engine, way, &mut Nothing)?;
    let Some(bar) = walked.before else {
        return Err(not_there(&bars, place, engine.state().bars_seen()));
    };
    engine.make_room(1);
    engine.step(&bar).map_err(|refusal| Problem::refused(&bars.name, refusal))?;
    let image = engine.dump().map_err(|refusal| source.refused(refusal))?;
    let mut outputs = Outputs::of(asked.over.read());
    outputs.add(&asked.output, image.clone());
    outputs.write()?;
    let mut answer = Answer::default();
    let seen = counted(engine.state().bars_seen(), "bar", "bars");
    answer.line(format!("{}: {} bytes, after {seen}", name_of(&asked.output), grouped(image.len() as u64)));
    answer.doubts(&source.file, &source.doubts);
    answer.notes(&source.file, &notes);
    Ok(answer)
}

fn resume(asked: &Resume) -> Result<Answer, Problem> {
    let (file, bytes) = (name_of(&asked.image), bytes_of(&asked.image)?);
    let ready = Ready::of(&asked.over)?;
    let engine = Engine::restored(&ready.source.table, &ready.settings, &bytes).map_err(|error| match error {
        yshturpa::Error::Refused(refusal) => refused(&file, &bytes, refusal),
        other => Problem::input(&file, "", other.to_string()),
    })?;
    let seen = engine.state().bars_seen();
    let after = (!asked.rest && seen > 0).then(|| Seen::of(&engine.state()));
    let way = Way { on_refusal: asked.over.on_refusal, after, until: None };
    let mut outcome = Outcome::of(Ready { engine, ..ready }, way, asked.wanted.html.is_some())?;
    let said = format!(
        "goes on from {file} after {}: all figures are of the bars from there on",
        counted(seen, "bar", "bars")
    );
    outcome.notes.push(said);
    let inputs = asked.over.read().into_iter().chain([asked.image.clone()]);
    run::written(outcome, &[], &asked.wanted, inputs)
}

fn cut(asked: &Cut) -> Result<Answer, Problem> {
    let (file, bytes) = (name_of(&asked.image), bytes_of(&asked.image)?);
    let image = Image::of(&bytes).map_err(|refusal| refused(&file, &bytes, refusal))?;
    let left = image.cut(asked.bytes).map_err(|refusal| Problem::refused(&file, refusal))?;
    if let Some(path) = &asked.output {
        let mut outputs = Outputs::of([&asked.image]);
        outputs.add(path, left.clone());
        outputs.write()?;
    }
    let mut answer = Answer::default();
    let of = grouped(left.len() as u64);
    answer.line(format!("{file} cut after {} of {of} bytes", grouped(asked.bytes.min(left.len() as u64))));
    words::cut(left.len(), asked.bytes, 8 * (7 + image.rows().slots())).iter().for_each(|line| answer.line(line));
    answer.line(match Image::of(&left) {
        Ok(_) => "read     whole: a box goes on from it".to_owned(),
        Err(refusal) => format!("read     refused {} at {}: {}", refusal.number, refusal.place, words::fault(&left)),
    });
    Ok(answer)
}
