//! Tables worked out on all processors.

use crate::progress::Stage;
use std::sync::Mutex;
use std::thread;

/// One byte, 0 or 1, for each of so many questions. A thread takes `chunk` of them at a time.
pub fn answers(
    label: &'static str,
    count: usize,
    chunk: usize,
    ask: impl Fn(usize) -> bool + Sync,
) -> Vec<u8> {
    filled(label, count, chunk, |first, part| {
        for (place, answer) in part.iter_mut().enumerate() {
            *answer = u8::from(ask(first + place));
        }
    })
}

/// A table of so many entries, filled `chunk` at a time: each thread is told where its part starts.
pub fn filled<T: Clone + Default + Send>(
    label: &'static str,
    count: usize,
    chunk: usize,
    fill: impl Fn(usize, &mut [T]) + Sync,
) -> Vec<T> {
    let stage = Stage::counted(label, count);
    let mut table = vec![T::default(); count];
    let chunks = Mutex::new((0..).step_by(chunk).zip(table.chunks_mut(chunk)));
    let next = || chunks.lock().ok()?.next();
    let work = || {
        while let Some((first, part)) = next() {
            fill(first, part);
            stage.advance(part.len());
        }
    };
    thread::scope(|scope| {
        for _ in 1..processors().min(count.div_ceil(chunk)) {
            scope.spawn(work);
        }
        work();
    });
    table
}

/// How many threads can work at once.
pub fn processors() -> usize {
    thread::available_parallelism().map_or(1, |n| n.get())
}

/// How many answers are yes.
pub fn ones(table: &[u8]) -> usize {
    table.iter().filter(|byte| **byte == 1).count()
}

#[cfg(test)]
mod tests {
    use super::*;

    #[test]
    fn every_question_gets_its_own_answer() {
        for count in [0, 1, 9, 10, 11, 107, 100_000] {
            let table = answers("test", count, 10, |n| n % 7 == 3);
            let expected: Vec<u8> = (0..count).map(|n| u8::from(n % 7 == 3)).collect();
            assert_eq!(table, expected);
            assert_eq!(ones(&table), expected.iter().filter(|answer| **answer == 1).count());
        }
    }
}
