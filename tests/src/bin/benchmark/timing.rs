//! Times of two doers of the same work, taken in turns, so that what disturbs the machine disturbs both. The times of one work are spread
//! over the whole measurement, so that a disturbance that lasts does not fall on one work alone; and each is short.

use std::time::{Duration, Instant};

/// A piece of work by its name and the lines or symbols in it, as the library does it and as something else does.
pub struct Work {
    name: String,
    size: usize,
    rounds: usize,
    library: Box<dyn FnMut()>,
    other: Box<dyn FnMut()>,
}

/// The two best times that a work took.
pub struct Row {
    pub name: String,
    pub size: usize,
    pub library: Duration,
    pub other: Duration,
}

impl Work {
    pub fn new(name: &str, size: usize, library: impl FnMut() + 'static, other: impl FnMut() + 'static) -> Work {
        Work { name: name.into(), size, rounds: ROUNDS, library: Box::new(library), other: Box::new(other) }
    }

    /// The same work, done once: one that takes seconds.
    pub fn once(self) -> Work {
        Work { rounds: 1, ..self }
    }
}

impl Row {
    pub fn ratio(&self) -> f64 {
        self.library.as_secs_f64() / self.other.as_secs_f64()
    }
}

const ROUNDS: usize = 60;
const LONG_ENOUGH: Duration = Duration::from_millis(1);

fn batch(work: &mut dyn FnMut(), times: u32) -> Duration {
    let start = Instant::now();
    (0..times).for_each(|_| work());
    start.elapsed()
}

/// How often a work is done for one time.
fn times(work: &mut dyn FnMut()) -> u32 {
    let mut times = 1;
    while batch(work, times) < LONG_ENOUGH {
        times *= 2;
    }
    times
}

/// The best of several times of each work: all works once, then all again that are done more than once.
pub fn measure(mut works: Vec<Work>) -> Vec<Row> {
    let counts = |w: &mut Work| if w.rounds == 1 { (1, 1) } else { (times(&mut w.library), times(&mut w.other)) };
    let counts: Vec<_> = works.iter_mut().map(counts).collect();
    let mut best = vec![(Duration::MAX, Duration::MAX); works.len()];
    for round in 0..ROUNDS {
        let done = works.iter_mut().zip(&mut best).zip(&counts).filter(|((work, _), _)| round < work.rounds);
        for ((work, best), count) in done {
            best.0 = best.0.min(batch(&mut work.library, count.0) / count.0);
            best.1 = best.1.min(batch(&mut work.other, count.1) / count.1);
        }
    }
    let rows = works.into_iter().zip(best);
    rows.map(|(work, (library, other))| Row { name: work.name, size: work.size, library, other }).collect()
}
