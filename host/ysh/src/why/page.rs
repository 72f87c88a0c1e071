//! A rule as a page: the whole tree, the chain marked, each value beside its node.

use yshturpa::layout::kind;
use yshturpa::Tree;

use super::chain::{Chains, Link};
use super::moment::Moment;
use super::values::{value_of, Value};
use super::words::yes;
use crate::page as skeleton;
use crate::svg::escape;
use crate::table::Words;

const STYLE: &str = include_str!("tree.css");

/// The rules that were asked at each of some bars, with their chains, below what is said above them.
pub fn page(moments: &[(Moment, Chains)], heads: &[Vec<String>]) -> String {
    let mut body = String::new();
    for ((moment, chains), head) in moments.iter().zip(heads) {
        body.push_str(&format!("<h1>{}</h1>\n", escape(&head[0])));
        let told = |line: &String| match line.split_once("  ") {
            Some((what, said)) => format!("<p><b>{what}</b> {}</p>\n", escape(said.trim())),
            None => format!("<p>{}</p>\n", escape(line)),
        };
        body.push_str(&format!("<div class=\"asked\">{}</div>\n", head[1..].iter().map(told).collect::<String>()));
        chains.iter().for_each(|(tree, links)| body.push_str(&part(moment, *tree, links)));
    }
    body.push_str(&format!(
        "<footer><p>The chain goes from the root to what decided, and is the proved engine's, as each value and answer is. Values stand \
         where they are read: below “bars before” so many bars back. Written by ysh {}.</p></footer>",
        env!("CARGO_PKG_VERSION")
    ));
    skeleton::page(&heads[0][0], STYLE, &[body])
}

fn part(moment: &Moment, tree: Tree, links: &[Link]) -> String {
    let Some(Link { line: first, .. }) = links.first() else {
        return format!("<h2>{}: absent, and never yes</h2>\n", tree.name());
    };
    let telling = moment.telling();
    let said: String = links
        .iter()
        .map(|link| format!("<li style=\"margin-left:{}em\">{}</li>", link.level, escape(&telling.line(&link.line))))
        .collect();
    let title = format!("{} says {}", tree.name(), yes(first.answer));
    format!(
        "<h2>{}</h2>\n<ol class=\"chain\">{said}</ol>\n<ul class=\"tree\">{}</ul>\n",
        escape(&title),
        drawn(moment, first.node, links)
    )
}

/// A node and all that is below it.
fn drawn(moment: &Moment, node: usize, links: &[Link]) -> String {
    let forest = &moment.source.forest;
    let words = Words { forest, names: &moment.source.names };
    let class = if links.iter().any(|link| link.line.node == node) { " class=\"on\"" } else { "" };
    let value = match value_of(forest, node, &moment.rows, &moment.position) {
        Value::Says(answer) => format!("<b class=\"{0}\">{0}</b>", yes(answer)),
        // A constant is its own label.
        Value::Is(_) if forest.nodes[node].kind == kind::CONST => String::new(),
        Value::Is(value) => format!("<b>{}</b>", escape(&value)),
        Value::Missing => "<b class=\"none\">missing</b>".to_owned(),
        Value::Unknown => String::new(),
    };
    let below: String = forest.children[node].iter().map(|&child| drawn(moment, child, links)).collect();
    let below = if below.is_empty() { below } else { format!("<ul>{below}</ul>") };
    format!("<li{class}><span><i>{node}</i> {} {value}</span>{below}</li>\n", escape(&words.label(node)))
}
