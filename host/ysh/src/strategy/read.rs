//! Reading a strategy document.

use serde_json::Value;

use super::ignored::ignored;
use super::place::path_at;
use super::spec::{Sizing, Slippage};
use super::{validate, Fault, Strategy};

/// A strategy as it was read, and what of the document was not looked at.
#[derive(Clone, Debug)]
pub struct Read {
    pub strategy: Strategy,
    pub ignored: Vec<String>,
}

/// Reads and validates a document: what the original's `parse` accepts, and no other.
pub fn read(text: &str) -> Result<Read, Fault> {
    let strategy: Strategy = serde_json::from_str(text).map_err(|error| fault(text, &error))?;
    validate(&strategy)?;
    let ignored = match (serde_json::from_str::<Value>(text), serde_json::to_value(&strategy)) {
        // An editor finds the schema by this key.
        (Ok(document), Ok(read)) => ignored(&document, &read).into_iter().filter(|path| path != "$schema").collect(),
        _ => Vec::new(),
    };
    Ok(Read { strategy, ignored })
}

fn fault(text: &str, error: &serde_json::Error) -> Fault {
    let (line, column) = (error.line(), error.column());
    let said = error.to_string();
    let said = said.strip_suffix(&format!(" at line {line} column {column}")).unwrap_or(&said);
    let said = match said {
        "trailing characters" => "something follows where the list, or the document, was expected to end",
        "EOF while parsing a value" => "the document ends where a value was expected",
        "EOF while parsing an object" => "the document ends inside an object: a comma or } was expected",
        "EOF while parsing a list" => "the document ends inside a list: a comma or ] was expected",
        "EOF while parsing a string" => "the document ends inside a string: a closing quote was expected",
        "expected value" => "a value was expected",
        "recursion limit exceeded" => "nested deeper than 128 brackets, which no document may be",
        "number out of range" => "a number that is too large for a 64-bit float",
        said => said,
    };
    if let Some(path) = tagged(text, said) {
        return Fault::new(path, in_words(said));
    }
    let path = path_at(text, line, column);
    let place = format!("line {line} column {column}");
    Fault::new(if path.is_empty() { place } else { format!("{place}, {path}") }, in_words(said))
}

/// What is expected, in words and not as a type of the language.
pub fn in_words(said: &str) -> String {
    const TYPES: [(&str, &str); 5] = [
        ("u32", "a whole number from 0 to 4,294,967,295"),
        ("u64", "a whole number from 0 to 18,446,744,073,709,551,615"),
        ("usize", "a whole number from 0 to 18,446,744,073,709,551,615"),
        ("f64", "a number"),
        ("a boolean", "true or false"),
    ];
    let Some((start, expected)) = said.rsplit_once("expected ") else {
        return said.to_owned();
    };
    let words = TYPES.iter().find(|(name, _)| *name == expected).map(|(_, words)| (*words).to_owned());
    let words = words.or_else(|| {
        let size = expected.strip_prefix("a tuple of size ")?;
        Some(format!("a list of {size}"))
    });
    let words = words.or_else(|| expected.starts_with("struct ").then(|| "an object".to_owned()));
    format!("{start}expected {}", words.unwrap_or_else(|| expected.to_owned()))
}

/// The part of a document that is read as a whole by its `type`, and of which serde_json knows no line: the one that is refused
/// so by itself.
fn tagged(text: &str, said: &str) -> Option<&'static str> {
    let document: Value = serde_json::from_str(text).ok()?;
    let refused = |error: Option<serde_json::Error>| error.is_some_and(|error| error.to_string() == said);
    let sizing = document.get("sizing")?.clone();
    if refused(serde_json::from_value::<Sizing>(sizing).err()) {
        return Some("sizing");
    }
    let slippage = document.get("costs")?.get("slippage")?.clone();
    refused(serde_json::from_value::<Slippage>(slippage).err()).then_some("costs.slippage")
}

#[cfg(test)]
mod tests {
    use super::*;

    pub const SMALL: &str = r#"{"symbol": "x", "timeframe": "1h", "indicators": {"a": {"type": "Ema", "params": [9]}},
        "entry": {"cross_above": ["a", {"price": "close"}]}, "exit": {"lt": ["a", 5]},
        "sizing": {"type": "fixed_qty", "qty": 1}}"#;

    fn refused(from: &str, to: &str) -> String {
        let text = SMALL.replacen(from, to, 1);
        assert_ne!(text, SMALL, "{from} is not in it");
        let fault = read(&text).unwrap_err();
        format!("{}: {}", fault.place, fault.text)
    }

    #[test]
    fn a_small_strategy_is_read() {
        let read = read(SMALL).unwrap();
        assert_eq!(read.strategy.spec_version, 1);
        assert!(read.ignored.is_empty());
    }

    #[test]
    fn what_is_wrong_is_said_with_its_place() {
        let said = refused("\"qty\": 1", "\"qty\": \"1\"");
        assert_eq!(said, "sizing: invalid type: string \"1\", expected a number");
        let said = refused("\"sizing\"", "\"costs\": {\"slippage\": {\"type\": \"fixed\"}}, \"sizing\"");
        assert!(said.starts_with("costs.slippage: unknown variant `fixed`, expected one of `fixed_bps`"), "{said}");
        let said = refused("\"type\": \"Ema\"", "\"type\": 5");
        assert!(said.contains("indicators.a.type: invalid type: integer `5`, expected a string"), "{said}");
        let said = refused("\"lt\": [\"a\", 5]", "\"lt\": [\"a\"]");
        assert!(said.contains("exit.lt") && said.contains("expected a list of 2"), "{said}");
        let said = refused("\"lt\"", "\"lower\"");
        assert!(said.contains("exit.lower: unknown variant `lower`, expected one of `gt`, `lt`"), "{said}");
        let said = refused("5]}", "5, 6]}");
        assert!(said.contains("exit.lt[2]: something follows where the list"), "{said}");
        let said = refused("\"cross_above\"", "\"rising\": [\"a\", -1], \"cross_above\"");
        assert!(said.contains("expected a whole number from 0 to 4,294,967,295"), "{said}");
        let said = refused("1}}", "1}");
        assert!(said.contains("the document ends inside an object"), "{said}");
    }

    #[test]
    fn a_key_that_nothing_reads_is_told() {
        let text = SMALL.replacen("\"symbol\"", "\"risk\": {\"stop_los_pct\": 3}, \"note\": 1, \"symbol\"", 1);
        assert_eq!(read(&text).unwrap().ignored, ["note", "risk.stop_los_pct"]);
    }
}
