//! A JSON value as text: keys in any order, spaces anywhere, now and then a key twice or a letter as its number.

use dice::Dice;
use serde_json::Value;

pub fn text(value: &Value, dice: &mut Dice) -> String {
    let mut text = String::new();
    put(value, dice, &mut text);
    text
}

fn put(value: &Value, dice: &mut Dice, text: &mut String) {
    space(dice, text);
    match value {
        Value::Object(fields) => {
            let mut fields: Vec<(&String, &Value)> = fields.iter().collect();
            (1..fields.len()).for_each(|i| fields.swap(i, dice.below(i + 1)));
            if !fields.is_empty() && dice.below(3000) == 0 {
                fields.push(fields[0]);
            }
            text.push('{');
            for (place, (key, value)) in fields.into_iter().enumerate() {
                text.push_str(if place > 0 { "," } else { "" });
                space(dice, text);
                string(key, dice, text);
                space(dice, text);
                text.push(':');
                put(value, dice, text);
            }
            space(dice, text);
            text.push('}');
        }
        Value::Array(items) => {
            text.push('[');
            for (place, item) in items.iter().enumerate() {
                text.push_str(if place > 0 { "," } else { "" });
                put(item, dice, text);
            }
            space(dice, text);
            text.push(']');
        }
        Value::String(letters) => string(letters, dice, text),
        other => text.push_str(&other.to_string()),
    }
}

fn string(letters: &str, dice: &mut Dice, text: &mut String) {
    match letters.is_ascii() && !letters.is_empty() && dice.percent(1) {
        true => {
            let rest: String = letters.chars().skip(1).collect();
            text.push_str(&format!("\"\\u{:04x}{rest}\"", u32::from(letters.as_bytes()[0])));
        }
        false => text.push_str(&Value::String(letters.to_owned()).to_string()),
    }
}

fn space(dice: &mut Dice, text: &mut String) {
    if dice.percent(8) {
        text.push_str(dice.pick(&[" ", "\n", "  ", "\t", "\r\n"]));
    }
}
