//! docs/STRATEGY.md and `ysh schema`: every example of the page is compiled, fits the schema, and has no key that nothing reads; the schema has
//! every key that the reader reads, and no other.

mod common;

use std::collections::BTreeSet;
use std::fs;
use std::path::Path;

use common::{folder, ysh, STRATEGY};
use serde_json::{json, Value};

/// The examples of the page.
fn examples() -> Vec<String> {
    let page = Path::new(env!("CARGO_MANIFEST_DIR")).join("../../docs/STRATEGY.md");
    let text = fs::read_to_string(page).unwrap();
    text.split("```json strategy\n").skip(1).map(|rest| rest.split("```").next().unwrap().to_owned()).collect()
}

fn schema() -> Value {
    let (status, out, err) = ysh(&["schema"]);
    assert_eq!((status, err.as_str()), (0, ""));
    serde_json::from_str(&out).unwrap()
}

/// Whether a value fits a schema: the words of the standard that ours uses, and no others.
fn fits(whole: &Value, schema: &Value, value: &Value) -> bool {
    schema.as_object().unwrap().iter().all(|(word, said)| match word.as_str() {
        "$ref" => {
            let name = said.as_str().unwrap().strip_prefix("#/$defs/").unwrap();
            fits(whole, &whole["$defs"][name], value)
        }
        "type" => match said {
            Value::Array(types) => types.iter().any(|one| is(one.as_str().unwrap(), value)),
            one => is(one.as_str().unwrap(), value),
        },
        "const" => said == value,
        "enum" => said.as_array().unwrap().contains(value),
        "anyOf" => said.as_array().unwrap().iter().any(|one| fits(whole, one, value)),
        "minimum" => value.as_f64().map_or(true, |x| x >= said.as_f64().unwrap()),
        "maximum" => value.as_f64().map_or(true, |x| x <= said.as_f64().unwrap()),
        "minItems" => value.as_array().map_or(true, |list| list.len() >= said.as_u64().unwrap() as usize),
        "maxItems" => value.as_array().map_or(true, |list| list.len() <= said.as_u64().unwrap() as usize),
        "minProperties" => value.as_object().map_or(true, |map| map.len() >= said.as_u64().unwrap() as usize),
        "maxProperties" => value.as_object().map_or(true, |map| map.len() <= said.as_u64().unwrap() as usize),
        "required" => value
            .as_object()
            .map_or(true, |map| said.as_array().unwrap().iter().all(|key| map.contains_key(key.as_str().unwrap()))),
        "properties" => value.as_object().map_or(true, |map| {
            map.iter().all(|(key, value)| said.get(key).map_or(true, |schema| fits(whole, schema, value)))
        }),
        "additionalProperties" => value.as_object().map_or(true, |map| {
            let named = |key: &String| schema.get("properties").and_then(|all| all.get(key)).is_some();
            let rest = map.iter().filter(|(key, _)| !named(key));
            rest.into_iter().all(|(_, value)| said != false && fits(whole, said, value))
        }),
        "items" => value.as_array().map_or(true, |list| list.iter().all(|value| fits(whole, said, value))),
        "prefixItems" => value.as_array().map_or(true, |list| {
            said.as_array().unwrap().iter().zip(list).all(|(schema, value)| fits(whole, schema, value))
        }),
        "title" | "description" | "$schema" | "$defs" => true,
        other => panic!("the schema has a word that is not looked at: {other}"),
    })
}

fn is(name: &str, value: &Value) -> bool {
    match name {
        "object" => value.is_object(),
        "array" => value.is_array(),
        "string" => value.is_string(),
        "number" => value.is_number(),
        "integer" => value.is_u64() || value.is_i64(),
        "boolean" => value.is_boolean(),
        _ => value.is_null(),
    }
}

/// Every key of the objects of a document.
fn keys(value: &Value, found: &mut BTreeSet<String>) {
    match value {
        Value::Object(map) => map.iter().for_each(|(key, value)| {
            found.insert(key.clone());
            keys(value, found);
        }),
        Value::Array(list) => list.iter().for_each(|value| keys(value, found)),
        _ => {}
    }
}

/// Every key that a schema has a place for.
fn places(schema: &Value, found: &mut BTreeSet<String>) {
    match schema {
        Value::Object(map) => map.iter().for_each(|(word, said)| {
            if word == "properties" {
                found.extend(said.as_object().unwrap().keys().cloned());
            }
            places(said, found);
        }),
        Value::Array(list) => list.iter().for_each(|value| places(value, found)),
        _ => {}
    }
}

/// A document with another part.
fn with(path: &str, part: Value) -> Value {
    let mut document: Value = serde_json::from_str(STRATEGY).unwrap();
    *document.pointer_mut(path).unwrap() = part;
    document
}

#[test]
fn the_pages_examples_compile_and_fit() {
    let folder = folder("strategy-page");
    let (file, table) = (folder.join("s.json"), folder.join("s.rtb"));
    let [file, table] = [file, table].map(|path| path.to_str().unwrap().to_owned());
    let (schema, examples) = (schema(), examples());
    assert_eq!(examples.len(), 3);
    for text in &examples {
        fs::write(&file, text).unwrap();
        let (status, out, err) = ysh(&["compile", &file, "-o", &table, "--strict"]);
        assert_eq!(status, 0, "{err}\n{text}");
        assert!(out.contains("nodes"), "{out}");
        assert!(fits(&schema, &schema, &serde_json::from_str(text).unwrap()), "{text}");
        let version = fs::read(&table).unwrap()[4];
        assert_eq!(version, if text.contains("highest") { 2 } else { 1 });
    }
    for name in ["breakout", "crossover", "hour"] {
        let path = Path::new(env!("CARGO_MANIFEST_DIR")).join("../../examples/strategies").join(format!("{name}.json"));
        assert!(fits(&schema, &schema, &serde_json::from_str(&fs::read_to_string(path).unwrap()).unwrap()), "{name}");
    }
}

/// The second example over the day of bars.
#[test]
fn highest_and_lowest_run() {
    let folder = folder("strategy-run");
    let file = folder.join("s.json").to_str().unwrap().to_owned();
    fs::write(&file, &examples()[1]).unwrap();
    let bars = Path::new(env!("CARGO_MANIFEST_DIR")).join("../../examples/bars/day.csv").to_str().unwrap().to_owned();
    let (status, out, err) = ysh(&["run", &file, &bars]);
    assert_eq!((status, err.as_str()), (0, ""));
    assert!(out.contains("trades   ") && !out.contains("trades   none"), "{out}");
    let (_, out, _) = ysh(&["why", &file, &bars, "--at", "700", "--tree", "entry"]);
    assert!(out.contains("(highest high over 20 bars) 1 bar before is "), "{out}");
}

#[test]
fn the_schema_has_every_key_that_is_read_and_no_other() {
    let schema = schema();
    let mut places_of = BTreeSet::new();
    places(&schema, &mut places_of);
    let mut read = BTreeSet::new();
    let more = [
        json!({"type": "fixed_fraction", "fraction": 1}),
        json!({"type": "fixed_qty", "qty": 1}),
        json!({"type": "fixed_cash", "cash": 1}),
        json!({"type": "vol_target", "target_vol": 1, "lookback": 3}),
    ]
    .map(|sizing| with("/sizing", sizing));
    let since = ["gt", "lt", "ge", "le", "eq"].map(|name| with("/exit", json!({"bars_since_entry": {name: 3}})));
    let slippage = json!({"price": "close"});
    assert!(slippage.is_object());
    let documents: Vec<Value> = examples().iter().map(|text| serde_json::from_str(text).unwrap()).collect();
    for document in documents.iter().chain(&more).chain(&since) {
        // What is read keeps every key of the document, and has those that were left out.
        let found = ysh::strategy::read(&document.to_string()).unwrap_or_else(|fault| panic!("{fault:?}: {document}"));
        assert_eq!(found.ignored, Vec::<String>::new(), "{document}");
        assert!(fits(&schema, &schema, document), "{document}");
        let mut all = serde_json::to_value(&found.strategy).unwrap();
        all["indicators"] = json!([all["indicators"]["rsi"]]);
        keys(&all, &mut read);
    }
    read.insert("$schema".to_owned());
    assert_eq!(read, places_of);
}

/// What the reader refuses, or says that nothing reads, does not fit.
#[test]
fn what_is_refused_does_not_fit() {
    let schema = schema();
    for document in [
        with("/sizing", json!({"type": "fixed_qty", "quantity": 1})),
        with("/sizing", json!({"type": "half"})),
        with("/entry", json!({"greater": ["fast", 1]})),
        with("/entry", json!({"gt": ["fast"]})),
        with("/entry", json!({"gt": ["fast", {"price": "last"}]})),
        with("/entry", json!({"gt": ["fast", {"highest": ["slow", 0]}]})),
        with("/entry", json!({"gt": ["fast", {"highest": [{"add": ["slow", 1]}, 5]}]})),
        with("/entry", json!({"rising": ["fast", -1]})),
        with("/entry", json!({"not": [{"gt": ["fast", 1]}]})),
        with("/entry", json!({"in_position": 1})),
        with("", json!({"symbol": "x"})),
    ] {
        assert!(!fits(&schema, &schema, &document), "{document}");
        let refused = match ysh::strategy::read(&document.to_string()) {
            Err(_) => true,
            Ok(read) => ysh::compile::rules(&read.strategy, Default::default()).is_err(),
        };
        assert!(refused, "{document}");
    }
    assert!(!fits(&schema, &schema, &with("", json!({"note": 1}))));
}
