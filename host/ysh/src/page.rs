//! The skeleton of every page that is written: one file, with its style and its script in it, and nothing of the network.

use crate::svg::escape;

const STYLE: &str = include_str!("page.css");

/// A page: its title, the style beside the one that all pages have, and the parts of its body, a line each at least.
pub fn page(title: &str, style: &str, body: &[String]) -> String {
    format!(
        "<!doctype html>\n<html lang=\"en\">\n<head>\n<meta charset=\"utf-8\">\n\
         <meta name=\"viewport\" content=\"width=device-width, initial-scale=1\">\n\
         <title>{}</title>\n<style>\n{STYLE}{style}</style>\n</head>\n<body>\n{}\n</body>\n</html>\n",
        escape(title),
        body.join("\n")
    )
}

/// A script of the page's own, as the last part of its body.
pub fn script(text: &str) -> String {
    format!("<script>\n{text}</script>")
}

/// A script with what it reads: JSON, found by its id.
pub fn script_over(id: &str, json: &str, text: &str) -> String {
    format!("<script type=\"application/json\" id=\"{id}\">{json}</script>\n{}", script(text))
}
