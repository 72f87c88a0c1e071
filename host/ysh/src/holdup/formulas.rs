//! Every formula, with its numbers: for the worst file, and for a time that is there.

use serde::Serialize;

use super::boxes::Boxed;
use super::given::{Given, HaveFrom};
use super::plan::{Commit, Flash, Plan};
use super::report::{Client, Report};
use super::supply::{farads, next_of, Supply, E12, E6};
use super::units::Time;
use crate::columns::{counted, grouped};
use crate::table::number;
use yshturpa::layout::MOST_DEPTH;

/// `name = formula = numbers = result`.
#[derive(Clone, Debug, PartialEq, Eq, Serialize)]
pub struct Formula {
    pub name: &'static str,
    pub formula: String,
    pub numbers: String,
    pub result: String,
}

fn formula(name: &'static str, formula: &str, numbers: String, result: String) -> Formula {
    Formula { name, formula: formula.to_owned(), numbers, result }
}

/// From the rules to the time, and to the capacitance, for one file.
pub fn of_file(given: &Given, client: &Client) -> Vec<Formula> {
    let size = &client.size;
    let (rows, slots) = (grouped(size.rows), size.slots);
    let bytes = |n: u64| format!("{} bytes", grouped(n));
    let mut all = vec![
        depth(client),
        formula("window", "D · 8 · (7 + K)", format!("{rows} · 8 · (7 + {slots})"), bytes(size.window)),
        formula("dump", "256 + D · 8 · (7 + K)", format!("256 + {rows} · 8 · (7 + {slots})"), bytes(size.dump)),
    ];
    all.extend(programs(&given.plan, client));
    all.push(writing(&given.plan, client));
    let (words, numbers) = with_margin(
        given,
        &format!("{} + before the first byte + dumps · writing", given.first_named()),
        format!("{} + {} + {} · {}", given.first(), given.before, grouped(given.copies()), client.written.time),
    );
    all.push(formula("time", &words, numbers, ms(client.alone)));
    all.extend(capacitance(given, client.alone));
    all
}

fn depth(client: &Client) -> Formula {
    let rows = client.size.rows;
    let needed = 1 + client.reach.max(client.lookback);
    let reach = grouped(client.reach);
    let (words, numbers) = match client.lookback {
        _ if rows > needed => ("what the settings say", format!("{}, and {} would do", grouped(rows), grouped(needed))),
        0 => ("1 + reach", format!("1 + {reach}")),
        lookback => ("1 + the greater of reach and lookback", format!("1 + max({reach}, {})", grouped(lookback))),
    };
    formula("D", words, numbers, counted(rows, "row", "rows"))
}

/// How many programs, where there are pages.
fn programs(plan: &Plan, client: &Client) -> Vec<Formula> {
    let (Flash::Pages { size, .. }, Some(programs)) = (plan.flash, client.written.programs) else {
        return Vec::new();
    };
    let dump = format!("⌈{} / {}⌉", grouped(client.size.dump), grouped(size));
    let pages = grouped(programs.pages);
    let (words, numbers) = match plan.commit {
        Commit::Mark => ("pages + the header's first 8 bytes by themselves", format!("{pages} + 1")),
        Commit::Seal => ("pages + the seal", format!("{pages} + 1")),
        Commit::Page => ("pages, the one with the mark last", pages),
    };
    let mut all = vec![
        formula("pages", "⌈dump / page⌉", dump, counted(programs.pages, "page", "pages")),
        formula("programs", words, numbers, counted(programs.all(), "program", "programs")),
    ];
    if let (Commit::Seal, Some(area)) = (plan.commit, client.area) {
        let (image, unit) = (grouped(client.size.dump.next_multiple_of(plan.unit)), grouped(plan.unit));
        let numbers = format!("⌈({image} + {unit}) / {}⌉", grouped(size));
        all.push(formula(
            "area",
            "⌈(whole units of the dump + the seal) / page⌉",
            numbers,
            counted(area, "page", "pages"),
        ));
    }
    all
}

fn writing(plan: &Plan, client: &Client) -> Formula {
    let (image, numbers) = match (plan.flash, client.written.programs) {
        (Flash::Pages { time, repeats: 0, .. }, Some(programs))
            if plan.commit_time.is_none() && plan.erase == Time(0) =>
        {
            let numbers = format!("{} · {time}", grouped(programs.all()));
            return formula("writing", "programs · time a page", numbers, ms(client.written.time));
        }
        (Flash::Pages { time, repeats: 0, .. }, Some(programs)) => {
            ("pages · time a page".to_owned(), format!("{} · {time}", grouped(programs.pages)))
        }
        (Flash::Pages { time, repeats, .. }, Some(programs)) => (
            "(pages + repeated) · time a page".to_owned(),
            format!("({} + {}) · {time}", grouped(programs.pages), grouped(repeats)),
        ),
        (Flash::Rate(rate), _) | (Flash::Pages { size: rate, .. }, None) => {
            ("dump / bytes a second".to_owned(), format!("{} / {}", grouped(client.size.dump), grouped(rate)))
        }
    };
    let (words, more) = beside(plan, " + ", false);
    formula("writing", &(image + &words), numbers + &more, ms(client.written.time))
}

/// What a dump takes beside the image's own pages, each with its sign: the words, and the numbers.
fn beside(plan: &Plan, sign: &str, repeated: bool) -> (String, String) {
    let mut parts = Vec::new();
    if let (Flash::Pages { time, repeats, .. }, true) = (plan.flash, repeated && plan.repeating() > Time(0)) {
        parts.push(("repeated · time a page", format!("{} · {time}", grouped(repeats))));
    }
    parts.extend((plan.commit != Commit::Page).then(|| ("commit", plan.committing().to_string())));
    parts.extend((plan.erase > Time(0)).then(|| ("erasing", plan.erase.to_string())));
    let words: String = parts.iter().map(|(word, _)| format!("{sign}{word}")).collect();
    (words, parts.iter().map(|(_, number)| format!("{sign}{number}")).collect())
}

/// With the margin, where there is one.
fn with_margin(given: &Given, words: &str, numbers: String) -> (String, String) {
    match given.margin.is_none() {
        true => (words.to_owned(), numbers),
        false => (format!("({words}) · (1 + margin)"), format!("({numbers}) · {}", 1.0 + given.margin.fraction())),
    }
}

/// What is drawn from the capacitor, and what its resistance takes, where these are told.
fn drawn(supply: &Supply) -> Vec<Formula> {
    let mut all = Vec::new();
    if let Some(efficiency) = supply.efficiency {
        let numbers = format!("{} / {}", supply.power, number(efficiency));
        all.push(formula("P", "power at the load / efficiency", numbers, format!("{} W", fine(supply.drawn()))));
    }
    if supply.esr > 0.0 {
        let numbers = format!("{} · {} / {}", number(supply.esr), fine(supply.drawn()), supply.lowest);
        all.push(formula(
            "lost",
            "ESR · P / V1, from the start on",
            numbers,
            format!("{} V", fine(supply.lost_volts())),
        ));
    }
    all
}

/// (V0 − lost)² − V1², and what tolerance, age and temperature leave: the words, and the numbers.
fn stored(supply: &Supply) -> (String, String) {
    let (lost, volts) = match supply.esr > 0.0 {
        true => ("(V0 − lost)²", format!("({} − {})²", supply.drop, fine(supply.lost_volts()))),
        false => ("V0²", format!("{}²", supply.drop)),
    };
    let parts = [("tolerance", supply.tolerance), ("age", supply.age), ("temperature", supply.temperature)];
    let parts = parts.into_iter().filter(|(name, lost)| *name != "temperature" || *lost > 0.0);
    let (mut words, mut numbers) = (format!("({lost} − V1²)"), format!("({volts} − {}²) V²", supply.lowest));
    for (name, lost) in parts {
        words.push_str(&format!(" · (1 − {name})"));
        numbers.push_str(&format!(" · (1 − {})", number(lost)));
    }
    (words, numbers)
}

/// The capacitance for a time, and the values that are sold.
fn capacitance(given: &Given, time: Time) -> Vec<Formula> {
    let Some(supply) = &given.supply else {
        return Vec::new();
    };
    let (words, numbers) = stored(supply);
    let farad = supply.capacitance(time);
    let mut all = drawn(supply);
    all.push(formula(
        "capacitance",
        &format!("2 · P · t / ({words})"),
        format!("2 · {} W · {} ms / ({numbers})", fine(supply.drawn()), time.up()),
        farads(farad),
    ));
    let sold = format!("{}, {}", next_of(&E12, farad), next_of(&E6, farad));
    all.push(formula("sold as", "the next value of E12, of E6", format!("no less than {}", farads(farad)), sold));
    all
}

/// The time that the capacitor which is there gives.
fn held_up(given: &Given) -> Vec<Formula> {
    let (HaveFrom::Capacitor(farad), Some(supply), Some(have)) = (given.have_from, &given.supply, given.have) else {
        return Vec::new();
    };
    let (words, numbers) = stored(supply);
    let mut all = drawn(supply);
    all.push(formula(
        "there is",
        &format!("C · {words} / (2 · P)"),
        format!("{} · {numbers} / (2 · {} W)", farads(farad), fine(supply.drawn())),
        format!("{} ms", have.down()),
    ));
    all
}

/// A number of at most five places.
fn fine(x: f64) -> String {
    number((x * 1e5).round() / 1e5)
}

/// Every section of formulas, with its title: the worst client, the time that is there, the longest box.
pub fn sections(report: &Report, worst: &Client) -> Vec<(String, Vec<Formula>)> {
    let given = &report.given;
    let title = format!("how it is reckoned, for {} alone (times in ms, rounded up)", worst.file);
    let mut all = vec![(title, of_file(given, worst))];
    if let Some(have) = given.have {
        let slots = counted(worst.size.slots, "slot", "slots");
        all.push((format!("how deep a window of its {slots} fits in {have} ms"), of_fit(given, have, worst)));
    }
    if let (Some(longest), true) = (report.worst_box(), report.clients.len() > 1 && given.dumps.is_none()) {
        let name = if longest.name.is_empty() { "the box".to_owned() } else { format!("box {}", longest.name) };
        all.push((format!("{name}, which writes {}", super::told::dumps(longest.dumps())), of_box(report, longest)));
    }
    all
}

/// How deep a window of a file's slots fits in the time that is there.
pub fn of_fit(given: &Given, have: Time, client: &Client) -> Vec<Formula> {
    let slots = client.size.slots;
    let plan = &given.plan;
    let share = given.share(have);
    let most = plan.most(share);
    let (there, number) = match given.margin.is_none() {
        true => ("there is", have.to_string()),
        false => ("there is / (1 + margin)", format!("{have} / {}", 1.0 + given.margin.fraction())),
    };
    let mut all = held_up(given);
    all.push(formula(
        "share",
        &format!("({there} − {} − before the first byte) / dumps", given.first_named()),
        format!("({number} − {} − {}) / {}", given.first(), given.before, grouped(given.copies())),
        format!("{share} ms"),
    ));
    let (words, numbers) = beside(plan, " − ", true);
    let (words, numbers) = match words.is_empty() {
        true => ("share".to_owned(), share.to_string()),
        false => (format!("(share{words})"), format!("({share}{numbers})")),
    };
    match plan.flash {
        Flash::Pages { size, time, .. } => {
            let pages = most / size;
            let fit = format!("⌊{words} / time a page⌋");
            all.push(formula("pages", &fit, format!("⌊{numbers} / {time}⌋"), counted(pages, "page", "pages")));
            let numbers = format!("{} · {}", grouped(pages), grouped(size));
            all.push(formula("bytes", "pages · page", numbers, grouped(most)));
        }
        Flash::Rate(rate) => {
            let fit = format!("⌊{words} · bytes a second⌋");
            all.push(formula("bytes", &fit, format!("⌊{numbers} ms · {}⌋", grouped(rate)), grouped(most)));
        }
    }
    all.push(formula(
        "rows",
        &format!("⌊(bytes − 256) / (8 · (7 + K))⌋, at most {}", grouped(MOST_DEPTH as u64)),
        format!("⌊({} − 256) / (8 · (7 + {slots}))⌋", grouped(most)),
        counted(given.rows_within(have, slots), "row", "rows"),
    ));
    if given.have_from == HaveFrom::Told {
        all.extend(capacitance(given, have).into_iter().filter(|formula| formula.name == "capacitance"));
    }
    all
}

/// As many dumps as are told one by one in a sum.
const TOLD: usize = 6;

/// One box that writes the dumps of all its clients.
fn of_box(report: &Report, one: &Boxed) -> Vec<Formula> {
    let given = &report.given;
    let clients = report.clients_of(one);
    let writing = match clients.len() <= TOLD {
        true => clients.iter().map(|client| client.written.time.to_string()).collect::<Vec<_>>().join(" + "),
        false => one.writing.to_string(),
    };
    let (words, numbers) = with_margin(
        given,
        &format!("{} + before the first byte + the writing of each dump", given.first_named()),
        format!("{} + {} + {writing}", given.first(), given.before),
    );
    let mut all = vec![formula("time", &words, numbers, ms(one.total))];
    all.extend(capacitance(given, one.total));
    all
}

fn ms(time: Time) -> String {
    format!("{} ms", time.up())
}
