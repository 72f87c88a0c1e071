//! How a file of bars is written, where that is not the usual way.

use clap::Args;

#[derive(Clone, Debug, Args)]
#[command(next_help_heading = "Bars")]
pub struct Form {
    /// Columns by other names: each as the file has it, then as it is meant, such as Date=time,Open=open
    #[arg(long, value_name = "THERE=HERE", value_delimiter = ',', value_parser = parse_column)]
    pub columns: Vec<(String, String)>,
    /// What stands between two cells: one character, or tab
    #[arg(long, value_name = "CHARACTER", default_value = ",", value_parser = parse_delimiter, allow_hyphen_values = true)]
    pub delimiter: u8,
}

impl Default for Form {
    fn default() -> Form {
        Form { columns: Vec::new(), delimiter: b',' }
    }
}

fn parse_column(text: &str) -> Result<(String, String), String> {
    match text.split_once('=') {
        Some((there, here)) if !there.trim().is_empty() && !here.trim().is_empty() => {
            Ok((there.trim().to_owned(), here.trim().to_owned()))
        }
        _ => Err("the name of a column and the one that is meant were expected, such as Open=open".to_owned()),
    }
}

fn parse_delimiter(text: &str) -> Result<u8, String> {
    match (text, text.as_bytes()) {
        ("tab" | "\\t", _) => Ok(b'\t'),
        (_, &[byte]) if byte.is_ascii() && !matches!(byte, b'"' | b'\n' | b'\r') => Ok(byte),
        _ => Err("one character was expected, such as ; or |, or tab".to_owned()),
    }
}

#[cfg(test)]
mod tests {
    use super::*;

    #[test]
    fn forms() {
        assert_eq!(parse_column("Open = open"), Ok(("Open".into(), "open".into())));
        assert_eq!((parse_delimiter(";"), parse_delimiter("tab"), parse_delimiter("\t")), (Ok(b';'), Ok(9), Ok(9)));
        for bad in ["", "=", "a=", "=b", "a"] {
            assert!(parse_column(bad).is_err(), "{bad}");
        }
        for bad in ["", ";;", "\"", "\n", "é"] {
            assert!(parse_delimiter(bad).is_err(), "{bad}");
        }
    }
}
