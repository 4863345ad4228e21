//! How far long work has come, on standard error: a line that moves on a terminal, else one line a stage.

use std::io::{stderr, IsTerminal, Write};
use std::sync::atomic::{AtomicBool, AtomicUsize, Ordering::Relaxed};
use std::sync::{Arc, Condvar, Mutex};
use std::thread::{self, JoinHandle};
use std::time::Duration;

/// A stage shorter than this shows nothing: on a terminal, and elsewhere.
const SHORT: Duration = Duration::from_millis(500);
const SHORT_ELSEWHERE: Duration = Duration::from_secs(2);
const BETWEEN: Duration = Duration::from_millis(100);

static SILENT: AtomicBool = AtomicBool::new(false);

/// Shows nothing from now on.
pub fn be_silent() {
    SILENT.store(true, Relaxed);
}

/// Does one step of work as a stage.
pub fn staged<T>(label: &'static str, work: impl FnOnce() -> T) -> T {
    let _stage = Stage::new(label);
    work()
}

/// One stage of work, shown from beside it if it takes long. The line is cleared when the stage ends.
pub struct Stage {
    shared: Arc<Shared>,
    watcher: Option<JoinHandle<()>>,
}

struct Shared {
    label: &'static str,
    /// 0 where it is not counted.
    total: usize,
    done: AtomicUsize,
    ended: Mutex<bool>,
    end: Condvar,
}

impl Stage {
    /// A stage that is one step.
    pub fn new(label: &'static str) -> Self {
        Stage::counted(label, 0)
    }

    /// A stage of so many items.
    pub fn counted(label: &'static str, total: usize) -> Self {
        let (done, ended, end) = (AtomicUsize::new(0), Mutex::new(false), Condvar::new());
        let shared = Arc::new(Shared { label, total, done, ended, end });
        let watched = Arc::clone(&shared);
        let watch = || thread::Builder::new().spawn(move || watched.watch_on_stderr()).ok();
        let watcher = if SILENT.load(Relaxed) { None } else { watch() };
        Stage { shared, watcher }
    }

    /// So many more items are done.
    pub fn advance(&self, items: usize) {
        self.shared.done.fetch_add(items, Relaxed);
    }
}

impl Drop for Stage {
    fn drop(&mut self) {
        self.shared.end_it();
        if let Some(watcher) = self.watcher.take() {
            let _ = watcher.join();
        }
    }
}

impl Shared {
    fn watch_on_stderr(&self) {
        match stderr().is_terminal() {
            true => self.watch(true, SHORT, &mut stderr()),
            false => self.watch(false, SHORT_ELSEWHERE, &mut stderr()),
        }
    }

    fn watch(&self, terminal: bool, short: Duration, out: &mut impl Write) {
        if self.ends_within(short) {
            return;
        }
        if !terminal {
            let _ = writeln!(out, "sporeferry: {} ...", self.label);
            return;
        }
        while !self.ends_within(BETWEEN) {
            let _ = write!(out, "\r\x1b[K{}", self.line());
        }
        let _ = write!(out, "\r\x1b[K");
    }

    fn end_it(&self) {
        if let Ok(mut ended) = self.ended.lock() {
            *ended = true;
        }
        self.end.notify_all();
    }

    fn line(&self) -> String {
        match self.total {
            0 => format!("{} ...", self.label),
            total => {
                let percent = 100.0 * self.done.load(Relaxed) as f64 / total as f64;
                format!("{}: {percent:.0} %", self.label)
            }
        }
    }

    /// Waits so long, or until the stage ends; whether it has ended.
    fn ends_within(&self, time: Duration) -> bool {
        let Ok(ended) = self.ended.lock() else {
            return true;
        };
        let waited = self.end.wait_timeout_while(ended, time, |ended| !*ended);
        waited.map_or(true, |(ended, _)| *ended)
    }
}

#[cfg(test)]
mod tests {
    use super::*;
    use std::io;

    /// Takes what is shown, moves the stage on with every line, and ends it when all is done.
    struct Page<'a>(&'a Stage, String);

    impl Write for Page<'_> {
        fn write(&mut self, bytes: &[u8]) -> io::Result<usize> {
            let Page(stage, text) = self;
            text.push_str(&String::from_utf8_lossy(bytes));
            if text.ends_with("100 %") {
                stage.shared.end_it();
            } else if text.ends_with(" %") {
                stage.advance(50);
            }
            Ok(bytes.len())
        }

        fn flush(&mut self) -> io::Result<()> {
            Ok(())
        }
    }

    fn shown(stage: &Stage, terminal: bool) -> String {
        let mut page = Page(stage, String::new());
        stage.shared.watch(terminal, Duration::ZERO, &mut page);
        page.1
    }

    #[test]
    fn a_stage_is_a_line_that_moves_or_one_line_elsewhere_and_nothing_if_it_is_short() {
        let stage = Stage::counted("cells", 100);
        assert_eq!(shown(&stage, false), "sporeferry: cells ...\n");
        let (start, moving) = ("\r\x1b[Kcells: ", shown(&stage, true));
        assert_eq!(moving, format!("{start}0 %{start}50 %{start}100 %\r\x1b[K"));
        assert_eq!((shown(&stage, true), shown(&stage, false)), (String::new(), String::new()));
    }
}
