//! The values of every bar's chain for a page, in little room: a line's words once, and for each bar their numbers.

use std::collections::HashMap;

use yshturpa::{Position, WhyLine};

use super::tally::Stamp;
use crate::show::rounded;
use crate::source::Source;
use crate::why::words::Telling;

/// As many bytes as a page has of them, in millions.
pub const MILLIONS: usize = 30;

/// Bars whose texts are one.
pub const TOGETHER: usize = 256;

/// Stands for a number in a line's words; no name has it, as they are shown without what steers.
const NUMBER: &str = "\u{1}";

/// The lines of bars one after another, as long as there is room. A text has `TOGETHER` bars with `;` between them; a bar its lines, `|` between; a
/// line the number of its words and the numbers in them, blanks between.
pub struct Values {
    pub words: Vec<String>,
    known: HashMap<String, usize>,
    pub texts: Vec<String>,
    /// The bars that are in them.
    pub bars: usize,
    bytes: usize,
    room: usize,
}

impl Default for Values {
    fn default() -> Values {
        Values::within(MILLIONS * 1_000_000)
    }
}

impl Values {
    fn within(room: usize) -> Values {
        Values { words: Vec::new(), known: HashMap::new(), texts: Vec::new(), bars: 0, bytes: 0, room }
    }

    /// The lines of the next bar; once there is no room for one, no more are taken.
    pub fn add<'a>(
        &mut self,
        source: &Source,
        position: &Position,
        at: Stamp,
        lines: impl Iterator<Item = &'a WhyLine>,
    ) {
        let telling = Telling { forest: &source.forest, names: &source.names, position, bars: at.bar + 1 };
        let lines = lines.map(|line| {
            let mut numbers = Vec::new();
            let words = telling.line_with(line, &mut |x| {
                numbers.push(rounded(x));
                NUMBER.to_owned()
            });
            (format!("#{} {words}", line.node), numbers)
        });
        let lines: Vec<(String, Vec<String>)> = if self.full() { Vec::new() } else { lines.collect() };
        self.put(&lines);
    }

    /// A bar without lines.
    pub fn skip(&mut self) {
        self.put(&[]);
    }

    fn full(&self) -> bool {
        self.bytes > self.room
    }

    fn put(&mut self, lines: &[(String, Vec<String>)]) {
        if self.full() {
            return;
        }
        let mut text = if self.bars % TOGETHER == 0 { String::new() } else { ";".to_owned() };
        for (n, (words, numbers)) in lines.iter().enumerate() {
            let number = match self.known.get(words) {
                Some(number) => *number,
                None => {
                    self.known.insert(words.clone(), self.words.len());
                    self.words.push(words.clone());
                    self.bytes += words.len();
                    self.words.len() - 1
                }
            };
            text.push_str(if n == 0 { "" } else { "|" });
            text.push_str(&number.to_string());
            for number in numbers {
                text.push(' ');
                text.push_str(number);
            }
        }
        self.bytes += text.len();
        if self.full() {
            return;
        }
        match self.texts.last_mut() {
            Some(last) if self.bars % TOGETHER != 0 => last.push_str(&text),
            _ => self.texts.push(text),
        }
        self.bars += 1;
    }
}

#[cfg(test)]
mod tests {
    use super::*;

    #[test]
    fn words_are_kept_once_and_bars_as_long_as_there_is_room() {
        let mut values = Values::within(200);
        let line = |words: &str, number: &str| (words.to_owned(), vec![number.to_owned()]);
        values.put(&[line("a is \u{1}", "1.5"), line("b is \u{1}", "2")]);
        values.skip();
        values.put(&[line("b is \u{1}", "-3")]);
        assert_eq!((values.words.len(), values.texts.clone(), values.bars), (2, vec!["0 1.5|1 2;;1 -3".to_owned()], 3));
        (0..1000).for_each(|_| values.put(&[line("b is \u{1}", "7")]));
        let kept: usize = values.texts.iter().map(String::len).sum();
        assert!(values.full() && kept <= 200 && values.bars < 60, "{kept} {}", values.bars);
        let mut values = Values::within(1_000_000);
        (0..TOGETHER + 2).for_each(|n| values.put(&[line("a is \u{1}", &n.to_string())]));
        assert_eq!((values.bars, values.texts.len(), &values.texts[1][..]), (258, 2, "0 256;0 257"));
    }
}
