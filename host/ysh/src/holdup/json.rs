//! The answer for programs.

use serde::Serialize;

use super::boxes::{Boxed, Verdict};
use super::formulas::{self, Formula};
use super::limits::limits;
use super::plan::{Commit, Flash};
use super::report::{Client, Report};
use super::sheet::{LIBRARY, VERSION};
use super::told::verdict;
use crate::commands::short::Silent;

#[derive(Serialize)]
struct Document<'a> {
    command: &'a str,
    date: &'a str,
    ysh_version: &'static str,
    library_sha256: &'static str,
    verdict: String,
    flash: FlashJson,
    commit: &'static str,
    commit_ms: f64,
    erase_ms: f64,
    margin: f64,
    before_ms: f64,
    longest_call_ms: f64,
    longest_call_from: Option<&'a str>,
    consume_ms: f64,
    dumps: Option<u64>,
    supply: Option<SupplyJson>,
    have_ms: Option<f64>,
    boxes: Vec<BoxJson<'a>>,
    files: Vec<FileJson<'a>>,
    worst: Option<Worst<'a>>,
    formulas: Vec<Formula>,
    limits: Option<Vec<Limit>>,
    against: Option<AgainstJson<'a>>,
    left_out: &'a [String],
    not_answered: Vec<Missing<'a>>,
}

#[derive(Serialize)]
#[serde(untagged)]
enum FlashJson {
    Pages { page_bytes: u64, page_ms: f64, page_typical_ms: Option<f64>, programs_repeated: u64 },
    Rate { bytes_per_second: u64 },
}

#[derive(Serialize)]
struct SupplyJson {
    power_w: f64,
    efficiency: Option<f64>,
    drop_v: f64,
    lowest_v: f64,
    esr_ohm: f64,
    tolerance: f64,
    age: f64,
    temperature: f64,
}

/// A box: all its dumps, one after another.
#[derive(Serialize)]
struct BoxJson<'a> {
    name: &'a str,
    dumps: u64,
    programs: Option<u64>,
    total_ms: f64,
    typical_ms: Option<f64>,
    capacitance_f: Option<f64>,
    /// None where no time is there, or where a file of it is not answered.
    fits: Option<bool>,
    /// Below 0 where it does not fit.
    spare_ms: Option<f64>,
    files: Vec<&'a str>,
    files_not_answered: u64,
}

/// A client; the times are those of a box that has it alone.
#[derive(Serialize)]
struct FileJson<'a> {
    file: &'a str,
    rows: u64,
    slots: u64,
    window_bytes: u64,
    dump_bytes: u64,
    /// Those of the image, and all programs of one dump, the commit's too; none where there are no pages.
    pages: Option<u64>,
    programs: Option<u64>,
    /// The pages to keep erased for it, the seal's too.
    area_pages: Option<u64>,
    writing_ms: f64,
    total_ms: f64,
    deepest: &'a str,
    fits: Option<bool>,
    rows_that_fit: Option<u64>,
    silent: Option<&'a [Silent]>,
    /// What so few rows do to a volatility target.
    volatility: Option<&'a str>,
    sizing_known: bool,
    doubts: &'a [String],
    notes: &'a [String],
    sha256: Vec<Hash<'a>>,
}

#[derive(Serialize)]
struct Hash<'a> {
    file: &'a str,
    sha256: &'a str,
}

#[derive(Serialize)]
struct Worst<'a> {
    file: &'a str,
    total_ms: f64,
    capacitance_f: Option<f64>,
    fits: Option<bool>,
}

#[derive(Serialize)]
struct Limit {
    slots: u64,
    rows: u64,
}

#[derive(Serialize)]
struct AgainstJson<'a> {
    before_ms: f64,
    clients: Vec<ChangeJson<'a>>,
}

#[derive(Serialize)]
struct ChangeJson<'a> {
    file: &'a str,
    rows_before: Option<u64>,
    rows_now: Option<u64>,
    writing_before_ms: Option<f64>,
    writing_now_ms: Option<f64>,
}

#[derive(Serialize)]
struct Missing<'a> {
    file: &'a str,
    status: u8,
    refused: Option<[u32; 2]>,
    text: String,
}

pub fn json(report: &Report) -> String {
    let given = &report.given;
    let plan = &given.plan;
    let worst = report.worst();
    let document = Document {
        command: &report.sheet.command,
        date: &report.sheet.date,
        ysh_version: VERSION,
        library_sha256: LIBRARY,
        verdict: verdict(report),
        flash: match plan.flash {
            Flash::Pages { size, time, repeats } => FlashJson::Pages {
                page_bytes: size,
                page_ms: time.ms(),
                page_typical_ms: given.typical.map(|time| time.ms()),
                programs_repeated: repeats,
            },
            Flash::Rate(rate) => FlashJson::Rate { bytes_per_second: rate },
        },
        commit: match plan.commit {
            Commit::Mark => "mark",
            Commit::Page => "page",
            Commit::Seal => "seal",
        },
        commit_ms: plan.committing().ms(),
        erase_ms: plan.erase.ms(),
        margin: given.margin.fraction(),
        before_ms: given.before.ms(),
        longest_call_ms: given.call.ms(),
        longest_call_from: given.call_from.as_deref(),
        consume_ms: given.consume.ms(),
        dumps: given.dumps,
        supply: supply(report),
        have_ms: given.have.map(|have| have.ms()),
        boxes: report.boxes.iter().map(|one| boxed(report, one)).collect(),
        files: report.clients.iter().map(file).collect(),
        worst: worst.map(|client| Worst {
            file: &client.file,
            total_ms: client.alone.ms(),
            capacitance_f: given.supply.map(|supply| supply.capacitance(client.alone)),
            fits: given.have.map(|have| client.alone <= have),
        }),
        formulas: worst.map_or(Vec::new(), |client| formulas::of_file(given, client)),
        limits: limits(given).map(|all| all.into_iter().map(|(slots, rows)| Limit { slots, rows }).collect()),
        against: against(report),
        left_out: &report.left_out,
        not_answered: report.problems.iter().map(missing).collect(),
    };
    serde_json::to_string_pretty(&document).expect("an answer is JSON") + "\n"
}

fn supply(report: &Report) -> Option<SupplyJson> {
    report.given.supply.map(|s| SupplyJson {
        power_w: s.power,
        efficiency: s.efficiency,
        drop_v: s.drop,
        lowest_v: s.lowest,
        esr_ohm: s.esr,
        tolerance: s.tolerance,
        age: s.age,
        temperature: s.temperature,
    })
}

fn boxed<'a>(report: &'a Report, one: &'a Boxed) -> BoxJson<'a> {
    let given = &report.given;
    let verdict = given.have.map(|have| one.verdict(have));
    BoxJson {
        name: &one.name,
        dumps: one.dumps(),
        programs: one.programs,
        total_ms: one.total.ms(),
        typical_ms: one.typical.map(|time| time.ms()),
        capacitance_f: given.supply.map(|supply| supply.capacitance(one.total)),
        fits: verdict.and_then(|verdict| match verdict {
            Verdict::Fits(_) => Some(true),
            Verdict::Short(_) => Some(false),
            Verdict::Unknown(_) => None,
        }),
        spare_ms: given.have.map(|have| have.less(one.total).ms() - one.total.less(have).ms()),
        files: report.clients_of(one).iter().map(|client| &client.file[..]).collect(),
        files_not_answered: one.missing,
    }
}

fn file(client: &Client) -> FileJson<'_> {
    let fit = client.fit.as_ref();
    FileJson {
        file: &client.file,
        rows: client.size.rows,
        slots: client.size.slots,
        window_bytes: client.size.window,
        dump_bytes: client.size.dump,
        pages: client.written.programs.map(|programs| programs.pages),
        programs: client.written.programs.map(|programs| programs.all()),
        area_pages: client.area,
        writing_ms: client.written.time.ms(),
        total_ms: client.alone.ms(),
        deepest: &client.why,
        fits: fit.map(|fit| fit.fits),
        rows_that_fit: fit.map(|fit| fit.rows),
        silent: fit.map(|fit| &fit.silent[..]),
        volatility: fit.and_then(|fit| fit.volatility.as_deref()),
        sizing_known: !client.unknown_sizing,
        doubts: &client.doubts,
        notes: &client.notes,
        sha256: client.digests.iter().map(|(file, sha256)| Hash { file, sha256 }).collect(),
    }
}

fn against(report: &Report) -> Option<AgainstJson<'_>> {
    let against = report.against.as_ref()?;
    let clients = against.changes.iter().map(|change| ChangeJson {
        file: &change.client,
        rows_before: change.before.map(|brief| brief.rows),
        rows_now: change.now.map(|brief| brief.rows),
        writing_before_ms: change.before.map(|brief| brief.writing.ms()),
        writing_now_ms: change.now.map(|brief| brief.writing.ms()),
    });
    Some(AgainstJson { before_ms: against.before.ms(), clients: clients.collect() })
}

fn missing(problem: &crate::problem::Problem) -> Missing<'_> {
    Missing {
        file: &problem.file,
        status: problem.status(),
        refused: problem.refusal.map(|refusal| [refusal.number, refusal.place]),
        text: problem.to_string(),
    }
}
