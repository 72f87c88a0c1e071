//! Every call of the wrapper, over the papers' worked rule.

use yshturpa::layout::STATE_WORDS;
use yshturpa::{check, depth, metrics, metrics_of_words, root, rule, run, silent, translate};
use yshturpa::{
    Bar, Bars, Done, Engine, EntryOrder, Error, Funding, Metrics, Order, OrderLevel, Reason, Refusal, Rows, Saved,
    Settings, Sizing, Slippage, Tree,
};

const FAST: usize = 3;
const SLOW: usize = 8;
const BARS: usize = 60;

fn node(kind: u8, selector: u8, n: u8) -> [u8; 16] {
    let mut bytes = [0; 16];
    (bytes[0], bytes[1], bytes[4]) = (kind, selector, n);
    bytes
}

/// Entry: CrossAbove(slot 0, slot 1). Exit: Lt(close, Prev(close, 2)).
fn table() -> Vec<u8> {
    let header = [b'R', b'T', b'B', 2, 1, 0, 7, 0, 3, 0, 4, 0, 0, 0, 0, 0];
    let nodes =
        [node(22, 0, 0), node(2, 0, 0), node(2, 0, 1), node(17, 0, 0), node(3, 3, 0), node(4, 0, 2), node(3, 3, 0)];
    [&header[..], &nodes.concat()].concat()
}

/// A wave of sixteen bars that climbs a little with each turn.
fn close_of(bar: usize) -> f64 {
    let phase = bar % 16;
    let height = if phase < 8 { phase } else { 16 - phase };
    100.0 + 1.5 * height as f64 + 0.25 * bar as f64
}

fn average(bar: usize, length: usize) -> Option<f64> {
    let first = (bar + 1).checked_sub(length)?;
    Some((first..=bar).rev().map(close_of).sum::<f64>() / length as f64)
}

fn bar(i: usize) -> Bar {
    let close = close_of(i);
    let open = if i > 0 { close_of(i - 1) } else { close };
    Bar {
        time: i as i64 * 60_000,
        open,
        high: close.max(open) + 0.5,
        low: close.min(open) - 0.5,
        close,
        volume: 1000.0,
        slots: vec![average(i, FAST), average(i, SLOW)],
        funding: None,
    }
}

fn settings(depth: usize) -> Settings {
    let mut settings = Settings::new(2, depth, 10_000.0, Sizing::FixedFraction(0.5));
    settings.taker_bps = 5.0;
    settings.slippage = Slippage::FixedBps(2.0);
    settings.stop_loss_pct = Some(10.0);
    settings
}

fn whole_run() -> (Engine, Metrics) {
    let mut engine = Engine::new(&table(), &settings(3), BARS, 32).unwrap();
    (0..BARS).for_each(|i| engine.step(&bar(i)).unwrap());
    let metrics = engine.finish().unwrap();
    (engine, metrics)
}

/// What `examples/c/expected` says of the same run.
#[test]
fn the_run_is_that_of_the_c_example() {
    let (engine, found) = whole_run();
    let trades: Vec<_> = engine.trades().collect();
    assert_eq!(trades.len(), 3);
    assert_eq!((trades[0].entry_time, trades[0].exit_time, trades[0].reason), (1_200_000, 1_620_000, Reason::Signal));
    assert_eq!((trades[0].worst, trades[1].worst, trades[2].worst, trades[0].funding), (108.75, 112.75, 116.75, 0.0));
    assert_eq!(
        format!("{:.6} {:.6} {:.6}", found.pnl, found.sharpe, found.max_drawdown),
        "828.642926 0.344383 1.135846"
    );
    assert_eq!((engine.equity().count(), found.num_trades), (BARS, 3));
    assert_eq!(engine.state().bars_seen(), BARS as u64);
    let points: Vec<_> = engine.equity().collect();
    assert_eq!(metrics(10_000.0, &points, &trades).unwrap(), found);
}

#[test]
fn a_table_is_checked_and_its_depth_told() {
    assert_eq!(check(&table()).map(|found| (found.nodes, found.rows)), Ok((7, 3)));
    assert_eq!(depth(&table(), 0).map(|found| (found.rows, found.bytes)), Ok((3, 216)));
    assert_eq!(depth(&table(), 20).unwrap().rows, 21);
    assert_eq!(depth(&table(), 4096), Err(Refusal { number: 12, place: 7 }));
    assert_eq!(check(b"RT"), Err(Refusal { number: 1, place: 0 }));
    assert_eq!(
        (silent(&table(), 3), silent(&table(), 2), silent(&table(), 1)),
        (Ok(vec![]), Ok(vec![3]), Ok(vec![0, 3]))
    );
    assert_eq!((root(2.0), root(-1.0).is_nan()), (2f64.sqrt(), true));
}

#[test]
fn an_engine_takes_the_tables_slots_and_no_smaller_window() {
    let new = |change: fn(&mut Settings)| {
        let mut settings = settings(3);
        change(&mut settings);
        Engine::new(&table(), &settings, 1, 1).map(|_| ()).unwrap_err()
    };
    assert_eq!(new(|s| s.depth = 2), Error::Depth { given: 2, needed: 3, most: 4096 });
    assert_eq!(new(|s| s.depth = 4097), Error::Depth { given: 4097, needed: 3, most: 4096 });
    assert_eq!(new(|s| s.slots = 1), Error::Slots { given: 1, table: 2 });
    let target = |s: &mut Settings| s.sizing = Sizing::VolTarget { target: 0.01, lookback: 20 };
    assert_eq!(new(target), Error::Depth { given: 3, needed: 21, most: 4096 });
    assert_eq!(new(|s| s.slots = 1).to_string(), "1 slots were given, and the table has 2");
    let bad = Engine::new(b"RTB", &settings(3), 1, 1).map(|_| ()).unwrap_err();
    assert_eq!(bad, Error::Refused(Refusal { number: 1, place: 0 }));
}

#[test]
fn a_refused_bar_changes_nothing() {
    let (mut one, mut other) =
        (Engine::new(&table(), &settings(3), 60, 32).unwrap(), Engine::new(&table(), &settings(3), 60, 32).unwrap());
    for i in 0..40 {
        let refused = one.step(&Bar { close: f64::NAN, ..bar(i) });
        assert_eq!(refused, Err(Refusal { number: 11, place: i as u32 }));
        let surplus = one.step(&Bar { slots: vec![Some(1.0); 3], ..bar(i) });
        assert_eq!(surplus, Err(Refusal { number: 13, place: 0 }));
        one.step(&bar(i)).unwrap();
        other.step(&bar(i)).unwrap();
        assert_eq!((one.state(), one.rows()), (other.state(), other.rows()));
    }
}

#[test]
fn a_saved_run_goes_on_as_the_unbroken_one() {
    let (unbroken, _) = whole_run();
    let all: Vec<_> = unbroken.equity().collect();
    for cut in [0, 1, 2, 3, 19, 20, 21, 30, 59] {
        let mut first = Engine::new(&table(), &settings(3), BARS, 32).unwrap();
        (0..cut).for_each(|i| first.step(&bar(i)).unwrap());
        let words = first.save().words();
        let saved = Saved::of_words(2, &words).unwrap();
        let mut second = Engine::resumed(&table(), &settings(3), BARS, 32, &saved).unwrap();
        (cut..BARS).for_each(|i| second.step(&bar(i)).unwrap());
        let points: Vec<_> = first.equity().chain(second.equity()).collect();
        assert_eq!(points, all);
        second.finish().unwrap();
        let trades: Vec<_> = first.trades().chain(second.trades()).collect();
        assert_eq!(trades, unbroken.trades().collect::<Vec<_>>());
    }
}

#[test]
fn parts_one_after_another_are_the_image() {
    let mut engine = Engine::new(&table(), &settings(3), BARS, 32).unwrap();
    (0..BARS / 2).for_each(|i| engine.step(&bar(i)).unwrap());
    let image = engine.dump().unwrap();
    for page in [1, 8, 100, 256, image.len(), image.len() + 9] {
        let (mut joined, mut part) = (Vec::new(), vec![0xee; page]);
        while let used @ 1.. = engine.dump_part(joined.len() as u64, &mut part).unwrap() {
            joined.extend_from_slice(&part[..used]);
        }
        assert_eq!(joined, image);
    }
    let mut part = [0xee; 8];
    assert_eq!(engine.dump_part(image.len() as u64 - 3, &mut part), Ok(3));
    assert_eq!(part[3..], [0xee; 5]);
}

#[test]
fn saved_words_that_are_no_state_are_refused() {
    let mut engine = Engine::new(&table(), &settings(3), BARS, 32).unwrap();
    (0..5).for_each(|i| engine.step(&bar(i)).unwrap());
    let words = engine.save().words();
    assert_eq!(words.len(), STATE_WORDS + 3 * 9);
    for length in [0, 1, STATE_WORDS, words.len() - 1] {
        assert_eq!(Saved::of_words(2, &words[..length]), Err(Error::Saved { words: length }));
    }
    assert!(Saved::of_words(3, &words).is_err());
    let mut wide = Engine::new(&table(), &settings(9), BARS, 32).unwrap();
    (0..9).for_each(|i| wide.step(&bar(i)).unwrap());
    let nine = wide.save();
    assert!(matches!(Engine::resumed(&table(), &settings(3), 1, 1, &nine), Err(Error::Saved { .. })));
}

/// A list of bars, a part at a time, is the same run as a call for each bar; a refused bar stops it and has changed nothing.
#[test]
fn many_bars_at_once() {
    let (table, settings) = (table(), settings(3));
    let mut one = Engine::new(&table, &settings, BARS, BARS).unwrap();
    let mut many = Engine::new(&table, &settings, 0, 1).unwrap();
    let mut bars = Bars::new(2);
    for i in 0..BARS {
        one.step(&bar(i)).unwrap();
        bars.push(&bar(i));
    }
    for part in [0..7, 7..8, 8..40, 40..BARS] {
        many.make_room(part.len());
        assert_eq!(many.step_over(&bars, part.clone()), Done { bars: part.len(), refused: None });
    }
    let mut broken = Bars::new(2);
    broken.push(&Bar { close: f64::NAN, ..bar(0) });
    many.make_room(1);
    let before = many.state();
    let refused = many.step_over(&broken, 0..1);
    assert_eq!(refused, Done { bars: 0, refused: Some(Refusal { number: 11, place: BARS as u32 }) });
    assert_eq!(many.state(), before);
    assert_eq!(many.save(), one.save());
    assert_eq!(many.finish(), one.finish());
    assert!(many.trades().count() > 1 && many.trades().eq(one.trades()) && many.equity().eq(one.equity()));
}

/// What is settled is handed over after every few bars, and forgotten: the parts together are the run, and have its metrics.
#[test]
fn results_in_parts_are_those_of_the_run() {
    let (whole, found) = whole_run();
    for each in [1, 2, 7, 59, 60] {
        let mut engine = Engine::new(&table(), &settings(3), 0, 1).unwrap();
        let (mut points, mut trades) = (Vec::new(), Vec::new());
        let mut keep = |(some, more): (&[u64], &[u64])| {
            points.extend_from_slice(some);
            trades.extend_from_slice(more);
        };
        for first in (0..BARS).step_by(each) {
            engine.make_room(each);
            (first..BARS.min(first + each)).for_each(|i| engine.step(&bar(i)).unwrap());
            keep(engine.settled());
            engine.forget_settled();
            assert_eq!((engine.equity().count(), engine.trades().count()), (1, 0));
        }
        engine.finish().unwrap();
        keep(engine.results());
        assert_eq!((&points[..], &trades[..]), whole.results());
        assert_eq!(metrics_of_words(10_000.0, &points, &trades), Ok(found));
        assert_eq!(engine.state().fees_paid(), whole.state().fees_paid());
    }
    let mut none = Engine::new(&table(), &settings(3), 0, 1).unwrap();
    none.forget_settled();
    assert_eq!((none.settled(), none.results()), ((&[][..], &[][..]), (&[][..], &[][..])));
}

#[test]
fn a_rule_is_asked_by_its_tree_and_by_its_steps() {
    let table = table();
    let steps = translate(&table, Tree::Exit).unwrap();
    assert_eq!((steps.len(), translate(&table, Tree::ShortExit).unwrap().len()), (48, 0));
    let mut engine = Engine::new(&table, &settings(3), BARS, 32).unwrap();
    let mut rows = Rows::new(2);
    for i in 0..BARS {
        engine.step(&bar(i)).unwrap();
        rows.push(&bar(i));
        let position = engine.state().position();
        let whole = rule(&table, Tree::Exit, &rows, &position).unwrap();
        let window = run(&steps, &engine.rows(), 3, &position).unwrap();
        assert_eq!((whole, window.visits), (window.answer, 3));
    }
    let other = Rows::new(1);
    let position = engine.state().position();
    assert_eq!(rule(&table, Tree::Exit, &other, &position), Err(Error::Slots { given: 1, table: 2 }));
    assert_eq!(run(&steps, &rows, 2, &position), Err(Error::Refused(Refusal { number: 15, place: 1 })));
}

#[test]
fn the_last_equity_point_counts_the_closing_fee() {
    let mut engine = Engine::new(&table(), &settings(3), BARS, 32).unwrap();
    (0..25).for_each(|i| engine.step(&bar(i)).unwrap());
    let (before, held) = (engine.equity().last().unwrap(), engine.state().position().qty);
    engine.finish().unwrap();
    let after = engine.equity().last().unwrap();
    assert!(held > 0.0 && engine.equity().count() == 25);
    assert!(after.time == before.time && after.equity < before.equity, "{before:?} {after:?}");
}

#[test]
fn an_entry_waits_for_its_level() {
    let mut at_limit = settings(3);
    at_limit.entry_order = EntryOrder::Limit { level_pct: -1.0 };
    at_limit.maker_bps = 1.0;
    let mut engine = Engine::new(&table(), &at_limit, BARS, 32).unwrap();
    let (mut decided, mut waited) = (None, 0);
    for i in 0..BARS {
        engine.step(&bar(i)).unwrap();
        match engine.state().order() {
            Some((Order::Long, 0)) => {
                let close: f64 = *decided.get_or_insert(close_of(i));
                let level = close * (1.0 + -1.0 / 100.0);
                assert_eq!(engine.state().order_level(), OrderLevel::Limit { level });
                waited += 1;
            }
            _ => {
                assert_eq!(engine.state().order_level(), OrderLevel::Market);
                decided = None;
            }
        }
    }
    assert!(waited > 1, "{waited}");
}

#[test]
fn an_order_kind_is_its_words() {
    let words = |entry_order| Settings { entry_order, maker_bps: 3.0, lot: 0.5, ..settings(3) }.words();
    let bits = |kind, rest: [f64; 4]| [&[kind][..], &rest.map(f64::to_bits)].concat();
    assert_eq!(words(EntryOrder::Market)[20..25], bits(0, [0.0, 0.0, 3.0, 0.5]));
    assert_eq!(words(EntryOrder::Limit { level_pct: -1.0 })[20..25], bits(1, [-1.0, 0.0, 3.0, 0.5]));
    assert_eq!(words(EntryOrder::Stop { level_pct: 1.0 })[20..25], bits(2, [1.0, 0.0, 3.0, 0.5]));
    let both = EntryOrder::StopLimit { stop_pct: 1.0, limit_pct: 2.0 };
    assert_eq!(words(both)[20..25], bits(3, [1.0, 2.0, 3.0, 0.5]));
}

#[test]
fn quantities_are_whole_lots() {
    let run = |lot: f64| {
        let mut engine = Engine::new(&table(), &Settings { lot, ..settings(3) }, BARS, 32).unwrap();
        let refused = (0..BARS).find_map(|i| engine.step(&bar(i)).err());
        (engine, refused)
    };
    let (engine, refused) = run(10.0);
    assert!(refused.is_none() && engine.trades().count() > 0 && engine.trades().all(|trade| trade.qty == 40.0));
    let (engine, refused) = run(1e-15);
    assert_eq!((refused, engine.state().bars_seen()), (Some(Refusal { number: 16, place: 20 }), 20));
    assert_eq!(run(-1.0).1, Some(Refusal { number: 12, place: 24 }));
}

#[test]
fn the_state_by_name() {
    let mut held = settings(3);
    held.funding = true;
    held.delay = 1;
    let mut engine = Engine::new(&table(), &held, BARS, 32).unwrap();
    let mut orders = Vec::new();
    for i in 0..BARS {
        let funding = Some(Funding { mark: 100.0, rate: 0.0001 });
        engine.step(&Bar { funding, ..bar(i) }).unwrap();
        orders.extend(engine.state().order());
    }
    assert!(orders.contains(&(Order::Long, 1)) && orders.contains(&(Order::Exit, 1)));
    let state = engine.state();
    assert_eq!((state.last_time(), state.last_close()), (59 * 60_000, close_of(59)));
    assert!(state.fees_paid() > 0.0 && state.cash() > 0.0 && state.entry_price() > 100.0);
    assert_eq!(state.rows_held(), 3);
    assert!(engine.trades().all(|trade| trade.funding > 0.0 && trade.worst < trade.entry_price));
}

#[test]
fn a_day_in_one_call_is_a_call_for_each_bar() {
    let table = table();
    let depth = depth(&table, 0).unwrap().rows as usize;
    let mut single = Engine::new(&table, &settings(depth), BARS, 32).unwrap();
    let mut whole = single.clone();
    for i in 0..BARS {
        single.step(&bar(i)).unwrap();
    }
    let mut bars: Vec<Bar> = (0..BARS).map(bar).collect();
    bars.insert(20, Bar { close: f64::NAN, ..bar(20) });
    let (done, answer) = whole.steps(&bars);
    assert_eq!((done, answer), (20, Err(Refusal { number: 11, place: 20 })));
    let surplus = Bar { slots: vec![Some(1.0); 3], ..bar(0) };
    assert_eq!(whole.steps(&[surplus]), (0, Err(Refusal { number: 13, place: 0 })));
    assert_eq!(whole.steps(&[]), (0, Ok(())));
    assert_eq!(whole.steps(&bars[21..]), (BARS - 20, Ok(())));
    assert_eq!(whole.save(), single.save());
    assert!(whole.trades().eq(single.trades()) && whole.equity().eq(single.equity()));
}

/// Sizes that nothing has get an answer, and no panic.
#[test]
fn silly_sizes() {
    let mut engine = Engine::new(&table(), &settings(3), BARS, BARS).unwrap();
    for slots in [65, 1000, usize::MAX - 9, usize::MAX] {
        let mut bars = Bars::new(slots);
        assert_eq!((bars.len(), Bars::with_room(slots, usize::MAX).len()), (0, 0));
        bars.push(&bar(0));
        assert_eq!((bars.len(), bars.bar(0).close), (1, bar(0).close));
        assert_eq!(engine.step_over(&bars, 0..1).refused.map(|refusal| refusal.number), Some(13));
        let mut rows = Rows::new(slots);
        rows.push(&bar(0));
        assert_eq!((rows.len(), rows.bar(0).close), (1, bar(0).close));
        assert_eq!(Rows::of_words(slots, Vec::new()), None);
    }
    let mut bars = Bars::new(2);
    (0..3).for_each(|i| bars.push(&bar(i)));
    // One of them ends before it begins, on purpose.
    #[allow(clippy::reversed_empty_ranges)]
    let asked = [(0..5, 3), (3..9, 0), (7..usize::MAX, 0), (2..1, 0)];
    for (places, done) in asked {
        let mut engine = Engine::new(&table(), &settings(3), BARS, BARS).unwrap();
        assert_eq!(engine.step_over(&bars, places), Done { bars: done, refused: None });
    }
}
