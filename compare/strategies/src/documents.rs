//! Random strategies, in every form that the format has.

use dice::Dice;
use serde_json::{json, Map, Value};

use crate::trees::{constant, tree, Manner, NAMES};

pub fn strategy(dice: &mut Dice) -> Value {
    let manner = Manner::new(dice);
    let mut fields = Map::new();
    let mut put = |name: &str, value: Value| fields.insert(name.to_owned(), value);
    put("symbol", json!(dice.pick(&["BTCUSD", "", "€"])));
    put("timeframe", json!("1h"));
    put("indicators", indicators(dice, &manner));
    put("entry", tree(dice, &manner, 1));
    put("exit", tree(dice, &manner, 1));
    for name in ["short_entry", "short_exit"] {
        if dice.percent(40) {
            let value = if dice.percent(5) {
                Value::Null
            } else {
                tree(dice, &manner, 2)
            };
            put(name, value);
        }
    }
    let sizing = sizing(dice);
    let stop = sizing["type"] == "risk_per_trade" && dice.percent(90);
    put("sizing", sizing);
    if dice.percent(60) {
        put("costs", costs(dice));
    }
    if stop || dice.percent(60) {
        put("risk", risk(dice, stop));
    }
    if dice.percent(60) {
        put("execution", execution(dice));
    }
    fields.extend(seldom(dice));
    Value::Object(fields)
}

/// Fields that most strategies leave out.
fn seldom(dice: &mut Dice) -> Map<String, Value> {
    let mut fields = Map::new();
    let mut put = |name: &str, value: Value| fields.insert(name.to_owned(), value);
    if dice.percent(30) {
        put("spec_version", json!(dice.pick(&[1, 1, 1, 1, 1, 1, 0, 2])));
    }
    if dice.percent(50) {
        put(
            "warmup",
            if dice.percent(10) {
                Value::Null
            } else {
                json!(dice.below(100))
            },
        );
    }
    if dice.percent(10) {
        put("ref_symbol", if dice.percent(50) { Value::Null } else { json!("ETH") });
    }
    if dice.percent(10) {
        put("comment", json!({"any": [1, "thing"]}));
    }
    fields
}

fn indicators(dice: &mut Dice, manner: &Manner) -> Value {
    let mut declared = Map::new();
    for name in NAMES {
        let base = name.split('.').next().unwrap_or(name);
        if manner.many_slots || dice.below(400) > 0 {
            let mut one = json!({"type": "Ema"});
            if dice.percent(60) {
                one["params"] = json!([dice.below(50), 0.5]);
            }
            if dice.percent(10) {
                one["feed"] = json!(dice.pick(&[
                    "kline",
                    "trade",
                    "orderbook",
                    "trade_quote",
                    "derivatives",
                    "cross_section"
                ]));
            }
            declared.insert(base.to_owned(), one);
        }
    }
    Value::Object(declared)
}

fn sizing(dice: &mut Dice) -> Value {
    let x = constant(dice);
    match dice.below(5) {
        0 => json!({"type": "fixed_fraction", "fraction": x}),
        1 => json!({"type": "fixed_qty", "qty": x}),
        2 => json!({"type": "fixed_cash", "cash": x}),
        3 => {
            let lookback = dice.pick(&[0, 1, 2, 20, 300, 4095, 4096]);
            json!({"type": "vol_target", "target_vol": x, "lookback": lookback})
        }
        _ => json!({"type": "risk_per_trade", "risk_pct": x}),
    }
}

fn costs(dice: &mut Dice) -> Value {
    if dice.percent(3) {
        return json!([1, 2.5, {"type": "spread"}, false]);
    }
    let mut fields = Map::new();
    for name in ["maker_bps", "taker_bps"] {
        if dice.percent(50) {
            fields.insert(name.to_owned(), constant(dice));
        }
    }
    if dice.percent(50) {
        let slippage = match dice.below(8) {
            0..=3 => json!({"type": "fixed_bps", "bps": constant(dice)}),
            4..=6 => json!({"type": "volume_impact", "coef": constant(dice)}),
            _ => json!({"type": "spread"}),
        };
        fields.insert("slippage".to_owned(), slippage);
    }
    if dice.percent(30) {
        fields.insert("funding".to_owned(), json!(dice.percent(50)));
    }
    Value::Object(fields)
}

/// Risk controls; with a stop loss where one is needed.
fn risk(dice: &mut Dice, stop: bool) -> Value {
    let mut fields = Map::new();
    for name in [
        "stop_loss_pct",
        "take_profit_pct",
        "trailing_stop_pct",
        "max_leverage",
        "max_position_pct",
    ] {
        if dice.percent(50) {
            fields.insert(
                name.to_owned(),
                if dice.percent(10) { Value::Null } else { constant(dice) },
            );
        }
    }
    if stop {
        fields.insert("stop_loss_pct".to_owned(), json!(2.5));
    }
    if dice.percent(30) {
        fields.insert("liquidation".to_owned(), json!(dice.percent(50)));
    }
    Value::Object(fields)
}

/// An execution; most of the time with what its order kind and its partial fills need.
fn execution(dice: &mut Dice) -> Value {
    let mut fields = Map::new();
    let mut put = |name: &str, value: Value| fields.insert(name.to_owned(), value);
    let needed = dice.percent(90);
    if dice.percent(60) {
        put(
            "order_type",
            json!(dice.pick(&["market", "limit", "stop", "stop_limit"])),
        );
    }
    if dice.percent(20) {
        put(
            "fill_timing",
            json!(dice.pick(&["next_open", "next_open", "next_open", "close"])),
        );
    }
    for name in ["limit_offset_pct", "stop_offset_pct", "max_participation"] {
        if needed || dice.percent(40) {
            put(name, constant(dice));
        }
    }
    if dice.percent(30) {
        put("latency_bars", json!(dice.below(4)));
    }
    if dice.percent(30) {
        put("partial_fills", json!(dice.percent(50)));
    }
    Value::Object(fields)
}
