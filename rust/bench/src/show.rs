//! Times and ratios as the tables have them.

/// `-` where one of the two was not timed.
pub fn ratio(of: Option<f64>, to: Option<f64>) -> String {
    match of.zip(to).map(|(of, to)| of / to) {
        None => "-".to_string(),
        Some(ratio) if ratio < 0.1 => format!("{ratio:.4}"),
        Some(ratio) => format!("{ratio:.2}"),
    }
}

pub fn time(seconds: Option<f64>) -> String {
    match seconds {
        None => "-".to_string(),
        Some(seconds) if seconds >= 0.1 => format!("{seconds:.2} s"),
        Some(seconds) if seconds >= 1e-4 => format!("{:.2} ms", seconds * 1e3),
        Some(seconds) => format!("{:.2} µs", seconds * 1e6),
    }
}
