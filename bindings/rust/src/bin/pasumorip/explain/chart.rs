//! Pool balances over a log as a drawing.

use crate::figures::grouped;
use pasumorip::Pool;

const WIDTH: f64 = 860.0;
const HEIGHT: f64 = 280.0;
const LEFT: f64 = 130.0;
const RIGHT: f64 = 20.0;
const TOP: f64 = 16.0;
const BOTTOM: f64 = 34.0;
/// More points than this are not told apart on a screen.
const MOST_POINTS: usize = 800;
const COLOURS: [&str; 4] = ["#2a6f97", "#c26a00", "#a4303f", "#4f772d"];

/// Balances of the four pools, before the first line and after each.
pub fn chart(balances: &[[i64; 4]]) -> String {
    let all = || balances.iter().flatten().copied();
    let (low, high) = (all().min().unwrap_or(0).min(0), all().max().unwrap_or(0).max(0));
    let scale = Scale { last: balances.len().saturating_sub(1).max(1), low, high: high.max(low + 1) };
    let mut marks = vec![(scale.low, "end"), (scale.high, "end")];
    if low < 0 {
        marks.push((0, "end"));
    }
    let mut svg = format!(
        "<svg viewBox=\"0 0 {WIDTH} {HEIGHT}\" role=\"img\" aria-label=\"Balance of each pool after each line\">\n"
    );
    for (figure, anchor) in marks {
        let y = scale.y(figure);
        svg += &format!("<line class=\"grid\" x1=\"{LEFT}\" y1=\"{y:.1}\" x2=\"{:.1}\" y2=\"{y:.1}\"/>", WIDTH - RIGHT);
        let x = LEFT - 8.0;
        svg +=
            &format!("<text x=\"{x:.1}\" y=\"{:.1}\" text-anchor=\"{anchor}\">{}</text>\n", y + 4.0, grouped(figure));
    }
    for (at, anchor) in [(0, "start"), (scale.last, "end")] {
        let (x, y) = (scale.x(at), HEIGHT - 12.0);
        let label = if at == 0 { "opened".to_string() } else { format!("line {}", grouped(at as i64)) };
        svg += &format!("<text x=\"{x:.1}\" y=\"{y:.1}\" text-anchor=\"{anchor}\">{label}</text>\n");
    }
    for pool in Pool::ALL {
        let index = usize::from(pool.number());
        let line = scale.steps(balances.iter().map(|figures| figures[index]), balances.len());
        let colour = COLOURS[index];
        svg += &format!("<path d=\"{line}\" fill=\"none\" stroke=\"{colour}\" stroke-width=\"2\">");
        svg += &format!("<title>{} pool</title></path>\n", pool.name());
    }
    svg + "</svg>\n"
}

/// The pools with their colours.
pub fn legend() -> String {
    let entry = |pool: Pool| {
        let colour = COLOURS[usize::from(pool.number())];
        format!("<span><i style=\"background:{colour}\"></i>{}</span>", pool.name())
    };
    format!("<p class=\"legend\">{}</p>\n", Pool::ALL.map(entry).join(" "))
}

struct Scale {
    last: usize,
    low: i64,
    high: i64,
}

impl Scale {
    fn x(&self, at: usize) -> f64 {
        LEFT + (WIDTH - LEFT - RIGHT) * at as f64 / self.last as f64
    }

    fn y(&self, figure: i64) -> f64 {
        let share = (figure as f64 - self.low as f64) / (self.high as f64 - self.low as f64);
        TOP + (HEIGHT - TOP - BOTTOM) * (1.0 - share)
    }

    /// A path that keeps a balance until the line that changes it.
    fn steps(&self, balances: impl Iterator<Item = i64>, count: usize) -> String {
        let stride = count.div_ceil(MOST_POINTS).max(1);
        let mut path = String::new();
        let mut drawn = None;
        for (at, balance) in balances.enumerate() {
            let shown = drawn.is_none() || at + 1 == count || at % stride == 0 && drawn != Some(balance);
            if !shown {
                continue;
            }
            match drawn {
                None => path += &format!("M{:.1} {:.1}", self.x(at), self.y(balance)),
                Some(_) => path += &format!("H{:.1}V{:.1}", self.x(at), self.y(balance)),
            }
            drawn = Some(balance);
        }
        path
    }
}
