//! Figures as people read them.

/// A number with a comma before every third digit from the right.
pub fn grouped(figure: impl Into<i128>) -> String {
    let figure = figure.into();
    let digits = figure.unsigned_abs().to_string();
    let mut text = if figure < 0 { "-".to_string() } else { String::new() };
    for (index, digit) in digits.chars().enumerate() {
        if index > 0 && (digits.len() - index) % 3 == 0 {
            text.push(',');
        }
        text.push(digit);
    }
    text
}

/// A few things in a sentence: `a`, `a and b`, `a, b and c`.
pub fn listed(things: &[String]) -> String {
    match things {
        [] => String::new(),
        [one] => one.clone(),
        [most @ .., last] => format!("{} and {last}", most.join(", ")),
    }
}

#[cfg(test)]
mod tests {
    use super::*;

    #[test]
    fn figures_are_grouped_by_three() {
        let all = [0, 7, 999, 1_000, -1, -999, -1_000, -123_456, 1_234_567, i64::MIN].map(grouped);
        let expected = ["0", "7", "999", "1,000", "-1", "-999", "-1,000", "-123,456", "1,234,567"];
        assert_eq!(all[..9], expected);
        assert_eq!(all[9], "-9,223,372,036,854,775,808");
    }

    #[test]
    fn things_are_listed() {
        let things = ["a", "b", "c"].map(String::from);
        assert_eq!([0, 1, 2, 3].map(|n| listed(&things[..n])), ["", "a", "a and b", "a, b and c"]);
    }
}
