//! A document that is damaged: something in it replaced, left out or added, or its text cut, struck or mixed up.

use dice::Dice;
use serde_json::{json, Value};

use crate::write;

pub fn damaged(document: &Value, text: &str, dice: &mut Dice) -> String {
    match dice.percent(65) {
        true => {
            let mut document = document.clone();
            for _ in 0..1 + dice.below(2) {
                in_value(&mut document, dice);
            }
            write::text(&document, dice)
        }
        false => in_text(text, dice),
    }
}

fn junk(dice: &mut Dice) -> Value {
    let all = [
        json!(null),
        json!(true),
        json!(0),
        json!(-1),
        json!(1.5),
        json!(4294967296u64),
        json!("close"),
        json!("ema"),
        json!("nobody"),
        json!(""),
        json!([]),
        json!({}),
        json!([1, 2]),
        json!(["ema", 1, 2]),
        json!({"price": "close"}),
        json!({"price": "typical"}),
        json!({"gt": [1, 2]}),
        json!({"gt": [1]}),
        json!({"gt": 1, "lt": 2}),
        json!({"prev": ["ema", -1]}),
        json!({"prev": [1, 2]}),
        json!({"type": "fixed_qty", "qty": 1}),
        json!({"type": "spread"}),
        json!(["fixed_qty", 1]),
        json!({"close": null}),
        json!({"all": []}),
        json!({"not": {"any": []}}),
        json!({"in_position": 1}),
    ];
    dice.pick(&all)
}

/// Goes down to some value of the document and changes it, or the list or object that it is in.
fn in_value(value: &mut Value, dice: &mut Dice) {
    let down = dice.percent(80);
    match value {
        Value::Object(fields) if !fields.is_empty() => {
            let keys: Vec<String> = fields.keys().cloned().collect();
            let key = dice.pick(&keys);
            match dice.below(20) {
                0 => drop(fields.remove(&key)),
                1 => drop(fields.insert("extra".to_owned(), junk(dice))),
                2 => {
                    let kept = fields.remove(&key).unwrap_or_default();
                    fields.insert(format!("{key}x"), kept);
                }
                3 => {
                    let order: Vec<Value> = fields.values().cloned().collect();
                    *value = Value::Array(order);
                }
                _ if down => in_value(&mut fields[&key], dice),
                _ => drop(fields.insert(key, junk(dice))),
            }
        }
        Value::Array(items) if !items.is_empty() => {
            let place = dice.below(items.len());
            match dice.below(20) {
                0 => drop(items.remove(place)),
                1 => items.insert(place, junk(dice)),
                _ if down => in_value(&mut items[place], dice),
                _ => items[place] = junk(dice),
            }
        }
        other => *other = junk(dice),
    }
}

fn in_text(text: &str, dice: &mut Dice) -> String {
    let mut bytes = text.as_bytes().to_vec();
    for _ in 0..1 + dice.below(3) {
        if bytes.is_empty() {
            break;
        }
        let at = dice.below(bytes.len());
        match dice.below(5) {
            0 => bytes.truncate(at),
            1 => drop(bytes.remove(at)),
            2 => bytes[at] = dice.pick(b"{}[],:\"0123456789.-eE truefalsn\\u/"),
            3 => bytes.insert(at, dice.pick(b"{}[],:\"019.-e \\")),
            _ => {
                let end = (at + dice.below(20)).min(bytes.len());
                let again = bytes[at..end].to_vec();
                bytes.splice(at..at, again);
            }
        }
    }
    String::from_utf8_lossy(&bytes).into_owned()
}
