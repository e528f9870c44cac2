//! An explanation as one page that needs nothing else.

use super::chart::{chart, legend};
use super::effect::Effect;
use super::explainer::{Explained, Explainer};
use super::summary::{pool_rows, Standing, Summary};
use super::text;
use crate::figures::grouped;
use pasumorip::Code;

const HEAD: &str = "\
<!DOCTYPE html>
<html lang=\"en\">
<head>
<meta charset=\"utf-8\">
<meta name=\"viewport\" content=\"width=device-width, initial-scale=1\">
<title>Log explained</title>
";

const STYLE: &str = "\
:root{color-scheme:light dark;font:15px/1.45 system-ui,sans-serif}
body{max-width:72rem;margin:2rem auto;padding:0 1rem}
h1{font-size:1.5rem}h2{font-size:1.15rem;margin-top:2rem}
table{border-collapse:collapse;width:100%;font-variant-numeric:tabular-nums}
th,td{padding:.3rem .6rem;text-align:right;border-bottom:1px solid #8884}
th{font-weight:600}.left{text-align:left}#accounts{font-size:.85rem}
.line{border-left:4px solid #4f772d;padding:.1rem 1rem;margin:1rem 0}
.line.refused{border-color:#a4303f}
.line p{margin:.3rem 0}.line ul{margin:.3rem 0}.asked{font-weight:600}
svg{width:100%;height:auto}svg text{font-size:12px;fill:currentColor}.grid{stroke:#8886;stroke-width:1}
.legend span{margin-right:1.2rem}.legend i{display:inline-block;width:.8em;height:.8em;margin-right:.4em}
";

pub struct Page {
    lines: String,
    balances: Vec<[i64; 4]>,
    refused: Vec<u64>,
}

/// The head of the page leads to this many refused lines.
const MOST_LINKS: usize = 20;

impl Page {
    pub fn open(explainer: &Explainer) -> Page {
        let balances = vec![explainer.books.pools.map(|pool| pool.balance)];
        Page { lines: String::new(), balances, refused: Vec::new() }
    }

    pub fn add(&mut self, explained: &Explained) {
        let Explained { number, signed, asked, outcome, .. } = explained;
        let refused = explained.code != Code::Done;
        if refused {
            self.refused.push(*number);
        }
        self.balances.push(explained.balances);
        let class = if refused { "line refused" } else { "line" };
        let (signed, asked, outcome) = (escaped(signed), escaped(asked), escaped(outcome));
        self.lines += &format!("<section class=\"{class}\" id=\"line-{number}\">\n");
        self.lines += &format!("<p class=\"asked\">Line {number} asks for {asked}.</p>\n");
        self.lines += &format!("<p>{signed}.</p>\n<p class=\"outcome\">{outcome}</p>\n");
        self.lines += &list(explained.effects.iter().map(Effect::to_string));
        if let Some(Standing { lead, sums }) = &explained.standing {
            self.lines += &format!("<p class=\"standing\">{}</p>\n{}", escaped(lead), list(sums.iter().cloned()));
        }
        self.lines += "</section>\n";
    }

    pub fn finish(self, explainer: &Explainer, left_over: usize) -> String {
        let counts = self.counts(&explainer.summary, left_over);
        let (legend, chart) = (legend(), chart(&self.balances));
        let pools = table("pools", &pool_rows(&explainer.books), &[0]);
        let accounts = table("accounts", &explainer.account_rows(), &[0, 3]);
        let accrued = explainer.moment.map_or(String::new(), |moment| {
            format!("<p id=\"accrued\">Accrued yield at {}.</p>\n", escaped(&moment.to_string()))
        });
        let (opening, lines) = (escaped(text::opening(explainer).trim()), self.lines);
        format!(
            "{HEAD}<style>\n{STYLE}</style>\n</head>\n<body>\n<h1>Log explained</h1>\n{counts}\
             <h2>Balance of each pool</h2>\n{legend}{chart}{pools}<h2>Accounts</h2>\n{accrued}{accounts}\
             <h2>Lines</h2>\n<p>{opening}</p>\n{lines}</body>\n</html>\n"
        )
    }

    /// How much there is, and the way to what was refused.
    fn counts(&self, summary: &Summary, left_over: usize) -> String {
        let (came_in, went_out) = summary.sums();
        let (lines, refused) = (grouped(summary.lines as i64), grouped(self.refused.len() as i64));
        let sums = format!("In all {} came in and {} went out.", grouped(came_in), grouped(went_out));
        let left_over = escaped(text::left_over(left_over).trim());
        let link = |line: &u64| format!(" <a href=\"#line-{line}\">line {line}</a>");
        let links: String = self.refused.iter().take(MOST_LINKS).map(link).collect();
        let way = if links.is_empty() { links } else { format!("<p>Refused:{links}</p>\n") };
        format!("<p id=\"counts\">{lines} lines, of which {refused} refused. {sums} {left_over}</p>\n{way}")
    }
}

fn list(items: impl Iterator<Item = String>) -> String {
    let items: String = items.map(|item| format!("<li>{}</li>\n", escaped(&item))).collect();
    if items.is_empty() {
        items
    } else {
        format!("<ul>\n{items}</ul>\n")
    }
}

/// A table whose first row is its header; the columns named stand to the left.
fn table(id: &str, rows: &[Vec<String>], left: &[usize]) -> String {
    let mut text = format!("<table id=\"{id}\">\n");
    for (index, row) in rows.iter().enumerate() {
        let tag = if index == 0 { "th" } else { "td" };
        let class = |column: usize| if left.contains(&column) { " class=\"left\"" } else { "" };
        let cells = row.iter().enumerate().map(|(at, cell)| format!("<{tag}{}>{}</{tag}>", class(at), escaped(cell)));
        text += &format!("<tr>{}</tr>\n", cells.collect::<String>());
    }
    text + "</table>\n"
}

fn escaped(text: &str) -> String {
    text.replace('&', "&amp;").replace('<', "&lt;").replace('>', "&gt;")
}
