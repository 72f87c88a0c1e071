//! `ysh blocked` over a year of minutes takes no more than five times `ysh run`. By itself in a file: the processor's time is that of the
//! whole process.

mod common;

use std::fs;
use std::path::Path;
use std::time::Instant;

use common::{folder, ysh, Dice};

fn example(name: &str) -> String {
    Path::new(env!("CARGO_MANIFEST_DIR")).join("../../examples").join(name).to_str().unwrap().to_owned()
}

fn put(folder: &Path, text: &str) -> String {
    let path = folder.join("year.csv");
    fs::write(&path, text).unwrap();
    path.to_str().unwrap().to_owned()
}

/// The processor's time of this process so far, as Linux tells it: hundredths of a second in user and in kernel mode.
fn processor() -> f64 {
    let stat = fs::read_to_string("/proc/self/stat").unwrap_or_default();
    let after_name = stat.rsplit(')').next().unwrap_or_default();
    let times = after_name.split_whitespace().skip(11).take(2);
    times.filter_map(|word| word.parse::<f64>().ok()).sum::<f64>() / 100.0
}

fn least(mut work: impl FnMut()) -> (f64, f64) {
    let one = |_| {
        let (began, before) = (Instant::now(), processor());
        work();
        (began.elapsed().as_secs_f64(), processor() - before)
    };
    (0..3).map(one).fold((f64::INFINITY, f64::INFINITY), |a, b| (a.0.min(b.0), a.1.min(b.1)))
}

/// The bars of a year of minutes; fewer where the build is no release, and nothing is asserted.
const YEAR: u64 = if cfg!(debug_assertions) { 20_000 } else { 525_600 };

/// The processor's time is asserted, which other work on the machine does not change.
#[test]
fn a_year_of_minutes() {
    let folder = folder("blocked-year");
    let mut dice = Dice(5);
    let mut text = "time,open,high,low,close,volume,atr,channel.upper\n".to_owned();
    let (mut price, mut upper) = (1000.0, 1000.0);
    for n in 0..YEAR {
        let open = price;
        price += (dice.below(2001) as f64 - 1000.0) / 1000.0;
        let (high, low) = (f64::max(open, price) + 0.25, f64::min(open, price) - 0.25);
        upper = if n % 20 == 0 { high } else { f64::max(upper, high) };
        let (time, volume, atr) =
            (1_735_689_600_000 + 60_000 * n, dice.below(90_000) as f64 / 1000.0, dice.below(9000) as f64 / 1000.0);
        text.push_str(&format!("{time},{open:.3},{high:.3},{low:.3},{price:.3},{volume:.3},{atr:.3},{upper:.3}\n"));
    }
    let (bars, rules) = (put(&folder, &text), example("strategies/breakout.json"));
    let run = least(|| assert_eq!(ysh(&["run", &rules, &bars]).0, 0));
    let blocked = least(|| {
        let (status, out, err) = ysh(&["blocked", &rules, &bars]);
        assert!(status == 0 && err.is_empty() && out.contains(" bars of "), "{out}{err}");
    });
    eprintln!(
        "a year of minutes: ysh run {:.2} s ({:.2} of the processor), ysh blocked {:.2} s ({:.2})",
        run.0, run.1, blocked.0, blocked.1
    );
    assert!(cfg!(debug_assertions) || blocked.1 < 5.0 * run.1 + 0.1, "{blocked:?} against {run:?}");
}
