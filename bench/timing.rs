// How long something takes, and the median of such times.
use std::time::Instant;

// Microseconds.
pub fn time<F: FnMut()>(mut f: F) -> f64 {
    let start = Instant::now();
    f();
    start.elapsed().as_nanos() as f64 / 1000.0
}

pub fn median(mut of: Vec<f64>) -> f64 {
    of.sort_by(|x, y| x.partial_cmp(y).unwrap());
    of[of.len() / 2]
}
