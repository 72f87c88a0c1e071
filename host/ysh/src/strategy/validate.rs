//! What a document must hold beyond its types: the conditions of the original's `validate`, each with its place.
//!
//! A declared feed is not held against the indicator's own: indicators are not here, and their values come by slot.

use super::spec::{Condition, Expr, FillTiming, Operand, OrderType, Sizing, Strategy, NEWEST};
use super::Fault;

pub fn validate(strategy: &Strategy) -> Result<(), Fault> {
    for (name, tree) in trees(strategy) {
        check_condition(strategy, tree, name)?;
    }
    if strategy.spec_version == 0 || strategy.spec_version > NEWEST {
        let text = format!("version {} is not read, 1 to {NEWEST} was expected", strategy.spec_version);
        return Err(Fault::new("spec_version", text));
    }
    for (broken, place, text) in settings(strategy) {
        if broken {
            return Err(Fault::new(place, text));
        }
    }
    Ok(())
}

/// The trees of a strategy that are there, by their names in the document.
fn trees(strategy: &Strategy) -> impl Iterator<Item = (&'static str, &Condition)> {
    let always = [("entry", Some(&strategy.entry)), ("exit", Some(&strategy.exit))];
    let short = [("short_entry", strategy.short_entry.as_ref()), ("short_exit", strategy.short_exit.as_ref())];
    always.into_iter().chain(short).filter_map(|(name, tree)| Some((name, tree?)))
}

/// What sizing and execution ask of each other: whether it is broken, the place, what was expected.
fn settings(strategy: &Strategy) -> [(bool, &'static str, &'static str); 8] {
    const LIMIT: &str = "execution.limit_offset_pct";
    const STOP: &str = "execution.stop_offset_pct";
    let execution = &strategy.execution;
    let kind = execution.order_type;
    let no_limit = execution.limit_offset_pct.is_none();
    let no_stop = execution.stop_offset_pct.is_none();
    let no_stop_loss = matches!(strategy.sizing, Sizing::RiskPerTrade { .. }) && strategy.risk.stop_loss_pct.is_none();
    let no_share = execution.partial_fills && execution.max_participation.is_none();
    let at_close = execution.fill_timing == FillTiming::Close;
    [
        (
            no_stop_loss,
            "risk.stop_loss_pct",
            "sizing risk_per_trade needs the distance to a stop, and one was expected",
        ),
        (kind == OrderType::Limit && no_limit, LIMIT, "a limit order needs it, and a percentage was expected"),
        (kind == OrderType::Stop && no_stop, STOP, "a stop order needs it, and a percentage was expected"),
        (kind == OrderType::StopLimit && no_stop, STOP, "a stop-limit order needs it, and a percentage was expected"),
        (kind == OrderType::StopLimit && no_limit, LIMIT, "a stop-limit order needs it, and a percentage was expected"),
        (no_share, "execution.max_participation", "partial fills need it, and a share of the volume was expected"),
        (at_close && kind != OrderType::Market, "execution.order_type", "with fills at the close market was expected"),
        (at_close && execution.latency_bars != 0, "execution.latency_bars", "with fills at the close 0 was expected"),
    ]
}

fn check_condition(strategy: &Strategy, condition: &Condition, path: &str) -> Result<(), Fault> {
    let operand = |operand: &Operand, name: &str, place: usize| {
        check_operand(strategy, operand, &format!("{path}.{name}[{place}]"))
    };
    let two = |(a, b): &(Operand, Operand), name: &str| operand(a, name, 0).and_then(|()| operand(b, name, 1));
    match condition {
        Condition::Gt(ab) => two(ab, "gt"),
        Condition::Lt(ab) => two(ab, "lt"),
        Condition::Ge(ab) => two(ab, "ge"),
        Condition::Le(ab) => two(ab, "le"),
        Condition::Eq(ab) => two(ab, "eq"),
        Condition::Ne(ab) => two(ab, "ne"),
        Condition::CrossAbove(ab) => two(ab, "cross_above"),
        Condition::CrossBelow(ab) => two(ab, "cross_below"),
        Condition::Between((a, low, high)) => {
            operand(a, "between", 0)?;
            operand(low, "between", 1)?;
            operand(high, "between", 2)
        }
        Condition::Rising((a, _)) => operand(a, "rising", 0),
        Condition::Falling((a, _)) => operand(a, "falling", 0),
        Condition::All(list) => check_list(strategy, list, &format!("{path}.all")),
        Condition::Any(list) => check_list(strategy, list, &format!("{path}.any")),
        Condition::Not(c) => check_condition(strategy, c, &format!("{path}.not")),
        Condition::InPosition(_) | Condition::BarsSinceEntry(_) => Ok(()),
    }
}

fn check_list(strategy: &Strategy, list: &[Condition], path: &str) -> Result<(), Fault> {
    list.iter().enumerate().try_for_each(|(place, c)| check_condition(strategy, c, &format!("{path}[{place}]")))
}

fn check_operand(strategy: &Strategy, operand: &Operand, path: &str) -> Result<(), Fault> {
    let expr = match operand {
        Operand::Const(_) => return Ok(()),
        Operand::Ref(name) => {
            let indicator = name.split('.').next().unwrap_or(name);
            if strategy.indicators.contains_key(indicator) {
                return Ok(());
            }
            return Err(Fault::new(path, undeclared(strategy, name, indicator)));
        }
        Operand::Expr(expr) => expr,
    };
    let two = |(a, b): &(Operand, Operand), name: &str| {
        check_operand(strategy, a, &format!("{path}.{name}[0]"))?;
        check_operand(strategy, b, &format!("{path}.{name}[1]"))
    };
    match expr.as_ref() {
        Expr::Price(_) => Ok(()),
        Expr::Prev((a, _)) => check_operand(strategy, a, &format!("{path}.prev[0]")),
        Expr::Add(ab) => two(ab, "add"),
        Expr::Sub(ab) => two(ab, "sub"),
        Expr::Mul(ab) => two(ab, "mul"),
        Expr::Div(ab) => two(ab, "div"),
        Expr::Highest((a, _)) => check_operand(strategy, a, &format!("{path}.highest[0]")),
        Expr::Lowest((a, _)) => check_operand(strategy, a, &format!("{path}.lowest[0]")),
    }
}

fn undeclared(strategy: &Strategy, name: &str, indicator: &str) -> String {
    let declared: Vec<&str> = strategy.indicators.keys().map(String::as_str).take(8).collect();
    let more = strategy.indicators.len().saturating_sub(declared.len());
    let list = match (declared.is_empty(), more) {
        (true, _) => "none is declared".to_owned(),
        (_, 0) => format!("declared are {}", declared.join(", ")),
        _ => format!("declared are {} and {more} more", declared.join(", ")),
    };
    format!("{name:?}: no indicator {indicator:?} is declared in indicators ({list})")
}
