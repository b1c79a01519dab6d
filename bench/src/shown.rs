//! Numbers of the tables that may not be there.

/// What stands where a revision has nothing to be timed.
const NONE: &str = "–";

/// The number with so many decimal places.
pub fn number(value: Option<f64>, places: usize) -> String {
    value.map_or(NONE.into(), |value| format!("{value:.places$}"))
}

/// How often the second is in the first; nothing can be said of a difference that came out below 0.
pub fn ratio(first: Option<f64>, second: Option<f64>) -> String {
    let positive = |value: &f64| *value > 0.0;
    let both = first.filter(positive).zip(second.filter(positive));
    number(both.map(|(first, second)| first / second), 2)
}
