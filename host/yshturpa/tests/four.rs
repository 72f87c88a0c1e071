//! Four accounts on one stream against four runs, each alone.

use yshturpa::{Account, Bar, Bars, Done, Engine, Refusal, Settings, Sizing, Status, Stream};

const BARS: usize = 60;
const BAD: usize = 20;

fn node(kind: u8, selector: u8, n: u8) -> [u8; 16] {
    let mut bytes = [0; 16];
    (bytes[0], bytes[1], bytes[4]) = (kind, selector, n);
    bytes
}

/// Entry: CrossAbove(slot 0, slot 1). Exit: Lt(close, Prev(close, 2)).
fn table() -> Vec<u8> {
    let header = [b'R', b'T', b'B', 2, 1, 0, 7, 0, 3, 0, 4, 0, 0, 0, 0, 0];
    let nodes =
        [node(22, 0, 0), node(2, 0, 0), node(2, 0, 1), node(17, 0, 0), node(3, 3, 0), node(4, 0, 2), node(3, 3, 0)];
    [&header[..], &nodes.concat()].concat()
}

/// A wave with two averages and a third slot that no account has.
fn bar(i: usize, slots: usize) -> Bar {
    let close = |i: usize| 100.0 + 1.5 * (i % 16).abs_diff(8) as f64 + 0.25 * i as f64;
    let average = |n: usize| (i + 1 >= n).then(|| (0..n).map(|back| close(i - back)).sum::<f64>() / n as f64);
    let (now, before) = (close(i), close(i.saturating_sub(1)));
    let mut all = vec![average(3), average(8), Some(now)];
    all.truncate(slots);
    Bar {
        time: i as i64,
        open: before,
        high: now.max(before),
        low: now.min(before),
        close: now,
        volume: 1000.0,
        slots: all,
        funding: None,
    }
}

fn engine(fraction: f64, leverage: f64, trades: usize) -> Engine {
    let mut settings = Settings::new(2, 3, 10_000.0, Sizing::FixedFraction(fraction));
    settings.taker_bps = 5.0;
    settings.max_leverage = Some(leverage);
    Engine::new(&table(), &settings, BARS, trades).unwrap()
}

#[test]
fn each_account_is_as_it_would_be_alone() {
    let engines = || [engine(0.5, 1.0, 32), engine(1.0, 1.0, 32), engine(0.25, 0.5, 1), engine(0.5, 2.0, 32)];
    let mut accounts = engines().map(|engine| Account::new(&table(), engine));
    let mut stream = Stream::new(3);
    let mut bars: Vec<Bar> = (0..BARS).map(|i| bar(i, 3)).collect();
    bars[BAD].slots[2] = Some(f64::NAN);
    let (done, answer) = stream.step(&bars, &mut accounts);
    assert_eq!((done, answer), (BAD as u64, Err(Refusal { number: 11, place: BAD as u32 })));
    bars[BAD] = bar(BAD, 3);
    assert_eq!(stream.step(&bars[BAD..], &mut accounts), ((BARS - BAD) as u64, Ok(())));
    assert_eq!(stream.bars(), BARS as u64);

    for (number, mut alone) in engines().into_iter().enumerate() {
        let account = &accounts[number];
        let refused = (0..BARS).find_map(|i| alone.step(&bar(i, 2)).err().map(|refusal| (i, refusal)));
        match (number, account.status()) {
            (3, status) => {
                let refusal = Refusal { number: 21, place: 0 };
                assert_eq!(status, Status::Stopped { refusal, bar: 0 });
                assert_eq!(account.engine.state().bars_seen(), 0);
                continue;
            }
            (_, Status::Runs) => assert_eq!(refused, None),
            (_, Status::Stopped { refusal, bar }) => assert_eq!(refused, Some((bar as usize, refusal))),
        }
        assert_eq!(account.engine.save().words(), alone.save().words());
        assert!(account.engine.equity().eq(alone.equity()) && account.engine.trades().eq(alone.trades()));
        assert_eq!(number == 2, account.status() != Status::Runs);
    }
}

#[test]
fn a_list_comes_to_what_its_bars_come_to() {
    let accounts = || [0.5, 1.0, 0.25, 0.75].map(|fraction| Account::new(&table(), engine(fraction, 1.0, 32)));
    let (mut one, mut other) = (accounts(), accounts());
    let mut bars: Vec<Bar> = (0..BARS).map(|i| bar(i, 3)).collect();
    bars[BAD].close = f64::INFINITY;
    let mut list = Bars::new(3);
    bars.iter().for_each(|bar| list.push(bar));
    let mut streams = [Stream::new(3), Stream::new(3)];
    let refused = Some(Refusal { number: 11, place: BAD as u32 });
    assert_eq!(streams[0].step_over(&list, 0..BARS, &mut one), Done { bars: BAD, refused });
    assert_eq!(streams[0].step_over(&list, BAD + 1..BARS, &mut one), Done { bars: BARS - BAD - 1, refused: None });
    for part in [&bars[..BAD], &bars[BAD + 1..]] {
        assert_eq!(streams[1].step(part, &mut other), (part.len() as u64, Ok(())));
    }
    assert_eq!(streams[0], streams[1]);
    for (one, other) in one.iter().zip(&other) {
        assert_eq!((one.status(), one.engine.save().words()), (Status::Runs, other.engine.save().words()));
        assert!(one.engine.equity().eq(other.engine.equity()) && one.engine.trades().eq(other.engine.trades()));
    }
}
