//! Times of two calls taken in turn, and their medians.

use std::hint::black_box;
use std::time::{Duration, Instant};

/// A sample repeats its call until it takes about this long, so that the clock's own time is small beside it.
const SAMPLE: Duration = Duration::from_micros(400);

/// The time that a row may take for each sample asked for. A row that takes longer has fewer samples, but not below `FEWEST`.
const ROW: Duration = Duration::from_millis(300);

/// The fewest samples of a row of which more are asked for.
const FEWEST: usize = 3;

/// What one side does: it puts its desk back, which is not timed, and makes its call as often as a sample needs.
pub struct Side<D, R, C> {
    pub desk: D,
    pub restore: R,
    pub call: C,
}

impl<D, A, R: Fn(&mut D), C: Fn(&mut D) -> A> Side<D, R, C> {
    /// The time of one of so many calls, in nanoseconds, and what the last of them answered.
    fn sample(&mut self, calls: u32) -> (f64, A) {
        (self.restore)(&mut self.desk);
        let start = Instant::now();
        for _ in 1..calls {
            black_box((self.call)(black_box(&mut self.desk)));
        }
        let answer = (self.call)(black_box(&mut self.desk));
        let time = start.elapsed();
        (time.as_nanos() as f64 / f64::from(calls), answer)
    }

    /// How many calls a sample makes. The call that finds it out is not counted among the samples.
    fn calls(&mut self) -> u32 {
        let (time, answer) = self.sample(1);
        black_box(answer);
        (SAMPLE.as_nanos() as f64 / time.max(1.0))
            .ceil()
            .min(10_000.0) as u32
    }
}

/// The medians of both sides, in nanoseconds, and the quarters of the ratios of each two samples that follow one another.
#[derive(Clone, Copy)]
pub struct Times {
    pub proved: f64,
    pub other: f64,
    pub samples: usize,
    lower: f64,
    upper: f64,
}

impl Times {
    /// The other side's time as a multiple of the proved one's: above 1 the proved one is the faster.
    pub fn ratio(&self) -> f64 {
        self.other / self.proved
    }

    /// A quarter of the ratios is below the first of these, and a quarter above the second.
    pub fn middle_half(&self) -> (f64, f64) {
        (self.lower, self.upper)
    }
}

/// Takes `repeat` samples of each side in turn. After each two, `same` stops unless their answers and desks are equal.
pub fn in_turn<D, A, R, C, E, B, S, F>(
    repeat: usize,
    mut proved: Side<D, R, C>,
    mut other: Side<E, S, F>,
    same: impl Fn(&D, A, &E, B),
) -> Times
where
    R: Fn(&mut D),
    C: Fn(&mut D) -> A,
    S: Fn(&mut E),
    F: Fn(&mut E) -> B,
{
    let (proved_calls, other_calls) = (proved.calls(), other.calls());
    let (mut proved_times, mut other_times) = (Vec::new(), Vec::new());
    let (start, row) = (Instant::now(), ROW * repeat as u32);
    while proved_times.len() < repeat && (proved_times.len() < FEWEST || start.elapsed() < row) {
        let (proved_time, proved_answer) = proved.sample(proved_calls);
        let (other_time, other_answer) = other.sample(other_calls);
        same(&proved.desk, proved_answer, &other.desk, other_answer);
        proved_times.push(proved_time);
        other_times.push(other_time);
    }
    summary(proved_times, other_times)
}

fn summary(mut proved: Vec<f64>, mut other: Vec<f64>) -> Times {
    let pairs = proved.iter().zip(&other);
    let mut ratios: Vec<f64> = pairs.map(|(proved, other)| other / proved).collect();
    Times {
        proved: quantile(&mut proved, 0.5),
        other: quantile(&mut other, 0.5),
        samples: ratios.len(),
        lower: quantile(&mut ratios, 0.25),
        upper: quantile(&mut ratios, 0.75),
    }
}

/// The value below which this part of the values stands, between two of them by proportion.
fn quantile(values: &mut [f64], part: f64) -> f64 {
    values.sort_by(f64::total_cmp);
    let place = part * (values.len() - 1) as f64;
    let (below, above) = (place.floor() as usize, place.ceil() as usize);
    values[below] + (values[above] - values[below]) * place.fract()
}

#[cfg(test)]
mod tests {
    use super::*;

    #[test]
    fn medians_and_ratios() {
        let times = summary(vec![1.0, 2.0, 4.0], vec![2.0, 6.0, 4.0]);
        assert_eq!((times.proved, times.other, times.samples), (2.0, 4.0, 3));
        assert_eq!(times.ratio(), 2.0);
        assert_eq!(times.middle_half(), (1.5, 2.5));
    }

    #[test]
    fn quantiles() {
        assert_eq!(quantile(&mut [7.0], 0.5), 7.0);
        assert_eq!(quantile(&mut [4.0, 1.0, 2.0], 0.5), 2.0);
        assert_eq!(quantile(&mut [4.0, 1.0, 2.0, 3.0], 0.5), 2.5);
        assert_eq!(quantile(&mut [5.0, 1.0, 2.0, 3.0, 4.0], 0.25), 2.0);
    }
}
