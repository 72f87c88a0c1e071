//! A drawing as SVG text: lines, bars and letters. The classes are those of `chart.css`, and of the style of the page that it is in.

/// How wide a letter of the drawing's font is, at most.
pub const LETTER: f64 = 7.4;

/// Which end of a text stands at its place.
#[derive(Clone, Copy, Debug, PartialEq, Eq)]
pub enum Anchor {
    Middle,
    End,
}

pub struct Svg {
    width: f64,
    height: f64,
    what: String,
    text: String,
}

const STYLE: &str = include_str!("chart.css");

/// Stripes for what is over the limit, so that it shows in black and white too.
const HATCH: &str = concat!(
    r#"<defs><pattern id="hatch" width="7" height="7" patternUnits="userSpaceOnUse" patternTransform="rotate(45)">"#,
    r##"<rect width="7" height="7" fill="#e9b5b0"/><line x1="0" y1="0" x2="0" y2="7" stroke="#a3211a" stroke-width="4"/>"##,
    "</pattern></defs>"
);

impl Svg {
    pub fn new(width: f64, height: f64, what: &str) -> Svg {
        Svg { width, height, what: escape(what), text: String::new() }
    }

    pub fn line(&mut self, class: &str, (x1, y1): (f64, f64), (x2, y2): (f64, f64)) {
        let line = format!(r#"<line class="{class}" x1="{x1:.1}" y1="{y1:.1}" x2="{x2:.1}" y2="{y2:.1}"/>"#);
        self.text.push_str(&line);
    }

    /// A shape by its outline.
    pub fn path(&mut self, class: &str, outline: &str) {
        self.text.push_str(&format!(r#"<path class="{class}" d="{outline}"/>"#));
    }

    /// A shape with a title of its own.
    pub fn mark(&mut self, class: &str, outline: &str, title: &str) {
        let title = escape(title);
        self.text.push_str(&format!(r#"<path class="{class}" d="{outline}"><title>{title}</title></path>"#));
    }

    pub fn bar(&mut self, class: &str, (x, y): (f64, f64), (width, height): (f64, f64), title: &str) {
        let title = escape(title);
        let place = format!(r#"x="{x:.2}" y="{y:.1}" width="{width:.2}" height="{height:.1}""#);
        self.text.push_str(&format!(r#"<rect class="{class}" {place}><title>{title}</title></rect>"#));
    }

    pub fn text(&mut self, class: &str, (x, y): (f64, f64), anchor: Anchor, text: &str) {
        let anchor = match anchor {
            Anchor::Middle => "middle",
            Anchor::End => "end",
        };
        let text = escape(text);
        self.text
            .push_str(&format!(r#"<text class="{class}" x="{x:.1}" y="{y:.1}" text-anchor="{anchor}">{text}</text>"#));
    }

    /// As a part of a page, as wide as there is room.
    pub fn done(self) -> String {
        let Svg { width, height, what, text } = self;
        format!(r#"<svg role="img" aria-label="{what}" viewBox="0 0 {width} {height}">{HATCH}{text}</svg>"#)
    }

    /// As a file of its own, with its style, on white; an element a line.
    pub fn file(self) -> String {
        let Svg { width, height, what, text } = self;
        let open = format!(
            r#"<svg xmlns="http://www.w3.org/2000/svg" role="img" aria-label="{what}" width="{width}" height="{height}" viewBox="0 0 {width} {height}">"#
        );
        let ground = r##"<rect width="100%" height="100%" fill="#fff"/>"##;
        let body = format!("{HATCH}{ground}{text}").replace("><", ">\n<");
        format!("{open}\n<style>\n{STYLE}</style>\n{body}\n</svg>\n")
    }
}

pub fn escape(text: &str) -> String {
    let mut escaped = String::with_capacity(text.len());
    for c in text.chars() {
        match c {
            '&' => escaped.push_str("&amp;"),
            '<' => escaped.push_str("&lt;"),
            '>' => escaped.push_str("&gt;"),
            '"' => escaped.push_str("&quot;"),
            c => escaped.push(c),
        }
    }
    escaped
}

#[cfg(test)]
mod tests {
    use super::*;

    #[test]
    fn what_is_written_is_escaped() {
        let mut svg = Svg::new(10.0, 10.0, "a \"b\"");
        svg.text("name", (1.0, 2.0), Anchor::End, "<c & d>");
        let text = svg.done();
        assert!(text.contains("aria-label=\"a &quot;b&quot;\"") && text.contains(">&lt;c &amp; d&gt;</text></svg>"));
    }
}
