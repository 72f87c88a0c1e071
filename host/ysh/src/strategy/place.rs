//! Where in a document a line and column are: the path of keys and places that leads there.

/// An object that was entered, with the key that was read last, or a list, with the place in it.
enum Level {
    Object(Option<String>),
    List(usize),
}

/// The path to a line and column (from 1, in bytes, as serde_json counts) of a JSON text, such as `entry.all[2].gt`; empty at the top.
pub fn path_at(text: &str, line: usize, column: usize) -> String {
    let start: usize = text.split_inclusive('\n').take(line.saturating_sub(1)).map(str::len).sum();
    let end = (start + column).min(text.len());
    path_of(&levels(&text.as_bytes()[..end]))
}

fn levels(text: &[u8]) -> Vec<Level> {
    let mut levels: Vec<Level> = Vec::new();
    let mut at = 0;
    let mut key_next = false;
    while at < text.len() {
        match text[at] {
            b'{' => {
                levels.push(Level::Object(None));
                key_next = true;
            }
            b'[' => levels.push(Level::List(0)),
            b'}' | b']' => {
                levels.pop();
            }
            b',' => match levels.last_mut() {
                Some(Level::List(place)) => *place += 1,
                Some(Level::Object(key)) => {
                    *key = None;
                    key_next = true;
                }
                None => {}
            },
            b'"' => {
                let end = end_of_string(text, at);
                if key_next {
                    if let Some(Level::Object(key)) = levels.last_mut() {
                        *key = Some(String::from_utf8_lossy(&text[at + 1..end]).into_owned());
                    }
                    key_next = false;
                }
                at = end;
            }
            _ => {}
        }
        at += 1;
    }
    levels
}

/// Where the closing quote of a string is, or the end of the text.
fn end_of_string(text: &[u8], start: usize) -> usize {
    let mut at = start + 1;
    while at < text.len() && text[at] != b'"' {
        at += if text[at] == b'\\' { 2 } else { 1 };
    }
    at.min(text.len())
}

fn path_of(levels: &[Level]) -> String {
    let mut path = String::new();
    for level in levels {
        match level {
            Level::Object(Some(key)) if path.is_empty() => path.push_str(key),
            Level::Object(Some(key)) => path.push_str(&format!(".{key}")),
            Level::Object(None) => {}
            Level::List(place) => path.push_str(&format!("[{place}]")),
        }
    }
    path
}

#[cfg(test)]
mod tests {
    use super::*;

    #[test]
    fn paths() {
        let text = "{\"a\": 1,\n \"entry\": {\"all\": [{\"gt\": [1, 2]}, {\"x]\\\"\": tru";
        let at = |needle: &str| {
            let offset = text.find(needle).unwrap();
            let line = text[..offset].matches('\n').count() + 1;
            let column = offset - text[..offset].rfind('\n').map_or(0, |n| n + 1);
            path_at(text, line, column)
        };
        assert_eq!(at("1,\n"), "a");
        assert_eq!(at("2]"), "entry.all[0].gt[1]");
        assert_eq!(at("tru"), "entry.all[1].x]\\\"");
        assert_eq!(path_at(text, 1, 0), "");
        assert_eq!(path_at(text, 99, 99), "entry.all[1].x]\\\"");
    }
}
