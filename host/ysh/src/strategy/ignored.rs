//! Keys of a document that nothing reads. The original passes over them, and so does the reader here; but a name that is misspelt is
//! such a key, and is told.

use serde_json::Value;

/// The paths of keys that are in the document and not in what was read of it.
pub fn ignored(document: &Value, read: &Value) -> Vec<String> {
    let mut paths = Vec::new();
    look(document, read, "", &mut paths);
    paths
}

fn look(document: &Value, read: &Value, path: &str, paths: &mut Vec<String>) {
    match (document, read) {
        (Value::Object(document), Value::Object(read)) => {
            for (key, value) in document {
                let path = if path.is_empty() { key.clone() } else { format!("{path}.{key}") };
                match read.get(key) {
                    Some(read) => look(value, read, &path, paths),
                    None if value.is_null() => {}
                    None => paths.push(path),
                }
            }
        }
        (Value::Array(document), Value::Array(read)) => {
            for (place, (value, read)) in document.iter().zip(read).enumerate() {
                look(value, read, &format!("{path}[{place}]"), paths);
            }
        }
        _ => {}
    }
}
