//! An operand: a number, the name of an indicator, or an object with one operator. Read by hand, since a derived reader of "one of
//! these" can only say that nothing fitted, and not what was expected where.

use std::fmt;

use serde::de::{Deserializer, Error, IgnoredAny, MapAccess, Visitor};
use serde::{Deserialize, Serialize};

use super::spec::PriceField;

#[derive(Clone, Debug, PartialEq, Serialize)]
#[serde(untagged)]
pub enum Operand {
    /// An indicator by its name, or `name.field` where it has more values than one.
    Ref(String),
    Const(f64),
    Expr(Box<Expr>),
}

#[derive(Clone, Debug, PartialEq, Serialize)]
#[serde(rename_all = "snake_case")]
pub enum Expr {
    Price(PriceField),
    /// The operand so many bars back.
    Prev((Operand, u32)),
    Add((Operand, Operand)),
    Sub((Operand, Operand)),
    Mul((Operand, Operand)),
    Div((Operand, Operand)),
    /// The highest of the operand over so many bars, the newest among them. An extension of ours: the original has none.
    Highest((Operand, u32)),
    /// The lowest, likewise.
    Lowest((Operand, u32)),
}

/// The key of an operand's object.
#[derive(Deserialize)]
#[serde(rename_all = "snake_case")]
enum Operator {
    Price,
    Prev,
    Add,
    Sub,
    Mul,
    Div,
    Highest,
    Lowest,
}

impl<'de> Deserialize<'de> for Operand {
    fn deserialize<D: Deserializer<'de>>(deserializer: D) -> Result<Operand, D::Error> {
        deserializer.deserialize_any(OperandVisitor)
    }
}

struct OperandVisitor;

impl<'de> Visitor<'de> for OperandVisitor {
    type Value = Operand;

    fn expecting(&self, f: &mut fmt::Formatter) -> fmt::Result {
        f.write_str("a number, an indicator's name in quotes or an object such as {\"price\": \"close\"}")
    }

    fn visit_str<E: Error>(self, name: &str) -> Result<Operand, E> {
        Ok(Operand::Ref(name.to_owned()))
    }

    fn visit_f64<E: Error>(self, x: f64) -> Result<Operand, E> {
        Ok(Operand::Const(x))
    }

    fn visit_u64<E: Error>(self, n: u64) -> Result<Operand, E> {
        Ok(Operand::Const(n as f64))
    }

    fn visit_i64<E: Error>(self, n: i64) -> Result<Operand, E> {
        Ok(Operand::Const(n as f64))
    }

    fn visit_map<A: MapAccess<'de>>(self, mut map: A) -> Result<Operand, A::Error> {
        let Some(operator) = map.next_key()? else {
            return Err(Error::custom("an empty object, expected one operator such as {\"price\": \"close\"}"));
        };
        let expr = match operator {
            Operator::Price => Expr::Price(map.next_value()?),
            Operator::Prev => Expr::Prev(map.next_value()?),
            Operator::Add => Expr::Add(map.next_value()?),
            Operator::Sub => Expr::Sub(map.next_value()?),
            Operator::Mul => Expr::Mul(map.next_value()?),
            Operator::Div => Expr::Div(map.next_value()?),
            Operator::Highest => Expr::Highest(map.next_value()?),
            Operator::Lowest => Expr::Lowest(map.next_value()?),
        };
        if map.next_key::<IgnoredAny>()?.is_some() {
            return Err(Error::custom("a second key, expected an object with one operator"));
        }
        Ok(Operand::Expr(Box::new(expr)))
    }
}

#[cfg(test)]
mod tests {
    use super::*;

    fn read(text: &str) -> Result<Operand, String> {
        serde_json::from_str(text).map_err(|e| e.to_string())
    }

    #[test]
    fn the_three_forms() {
        assert_eq!(read("\"ema\""), Ok(Operand::Ref("ema".into())));
        assert_eq!(read("-3"), Ok(Operand::Const(-3.0)));
        assert_eq!(read("18446744073709551616"), Ok(Operand::Const(18446744073709551616.0)));
        let close = Operand::Expr(Box::new(Expr::Price(PriceField::Close)));
        assert_eq!(read(r#"{"price": {"close": null}}"#), Ok(close.clone()));
        assert_eq!(
            read(r#"{"prev": ["a", 2]}"#),
            Ok(Operand::Expr(Box::new(Expr::Prev((Operand::Ref("a".into()), 2)))))
        );
        assert_eq!(
            read(r#"{"add": [{"price": "close"}, 1]}"#).map(|o| serde_json::to_string(&o).unwrap()).unwrap(),
            r#"{"add":[{"price":"close"},1.0]}"#
        );
    }

    #[test]
    fn what_is_no_operand_says_what_was_expected() {
        assert!(read("true").unwrap_err().contains("expected a number, an indicator's name in quotes or an object"));
        assert!(read("{}").unwrap_err().contains("expected one operator"));
        assert!(read(r#"{"price": "close", "price": "open"}"#).unwrap_err().contains("a second key"));
        assert!(read(r#"{"pow": [1, 2]}"#).unwrap_err().contains("expected one of `price`, `prev`, `add`"));
    }
}
