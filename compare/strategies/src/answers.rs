//! What the trees of a compiled strategy say, against `eval_condition`.

use dice::Dice;
use yshturpa::{rule, Bar, Position, Rows, Tree};

use crate::data::Candle;
use crate::limits::trees;
use crate::meaning::Counts;
use crate::rules::{eval_condition, BarRow, RuleState};
use crate::spec::{Condition, StrategySpec};
use ysh::compile::Rules;

/// Every tree says what `eval_condition` says, over random rows and positions.
pub fn same_answers(theirs: &StrategySpec, rules: &Rules, dice: &mut Dice, counts: &mut Counts) -> Result<(), String> {
    for _ in 0..4 {
        let many = dice.pick(&[0, 1, 2, 3, 5, 8, 13, 30]);
        let walk = dice.percent(50);
        let bars: Vec<Bar> = (0..many).map(|i| bar(i, rules.names.len(), walk, dice)).collect();
        let mut rows = Rows::new(rules.names.len());
        bars.iter().for_each(|bar| rows.push(bar));
        let history: Vec<BarRow> = bars.iter().map(|bar| row_of(bar, &rules.names)).collect();
        let position = position(dice, many as u64);
        let state = state_of(&position);
        for (tree, wanted) in Tree::ALL.into_iter().zip(trees(theirs)) {
            let index = history.len().saturating_sub(1);
            let never = Condition::Any(Vec::new());
            let wanted = eval_condition(wanted.unwrap_or(&never), &history, index, state);
            let found = rule(&rules.table, tree, &rows, &position).map_err(|error| error.to_string())?;
            counts.answers += 1;
            counts.yes += u64::from(wanted);
            if found != wanted {
                return Err(format!(
                    "{} says {found}, {wanted} expected; {position:?}, bars {bars:?}",
                    tree.name()
                ));
            }
        }
    }
    Ok(())
}

/// Prices near each other, so that comparisons go either way, or any finite floats.
fn bar(time: i64, slots: usize, walk: bool, dice: &mut Dice) -> Bar {
    let mut number = || match walk {
        true => 100.0 + (dice.below(9) as f64 - 4.0) / 2.0,
        false => Some(f64::from_bits(dice.bits()))
            .filter(|x| x.is_finite())
            .unwrap_or(0.0),
    };
    let [open, high, low, close, volume] = [number(), number(), number(), number(), number()];
    let values: Vec<f64> = (0..slots).map(|_| number()).collect();
    let slots = values.into_iter().map(|x| (!dice.percent(15)).then_some(x)).collect();
    Bar {
        time,
        open,
        high,
        low,
        close,
        volume,
        slots,
        funding: None,
    }
}

fn row_of(bar: &Bar, names: &[String]) -> BarRow {
    let Bar {
        time,
        open,
        high,
        low,
        close,
        volume,
        ..
    } = *bar;
    let values = names
        .iter()
        .zip(&bar.slots)
        .filter_map(|(name, value)| Some((name.as_str().into(), (*value)?)));
    BarRow {
        candle: Candle {
            time,
            open,
            high,
            low,
            close,
            volume,
        },
        values: values.collect(),
    }
}

fn position(dice: &mut Dice, rows: u64) -> Position {
    let bars_seen = rows.max(1) + dice.below(3) as u64;
    let qty = dice.pick(&[0.0, 1.0, -2.0, 1e-16, f64::EPSILON]);
    let entry_bar = dice.percent(60).then(|| dice.below(bars_seen as usize) as u64);
    Position {
        qty,
        entry_bar,
        bars_seen,
    }
}

/// What the engine of the text would hand to its rules: no entry bar while flat.
fn state_of(position: &Position) -> RuleState {
    let in_position = position.qty.abs() > f64::EPSILON;
    let since = position.entry_bar.map(|bar| (position.bars_seen - 1 - bar) as u32);
    RuleState {
        in_position,
        bars_since_entry: since.filter(|_| in_position),
    }
}
