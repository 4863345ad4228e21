//! What the machine is, in words.

use std::fs::read_to_string;

fn field(file: &str, name: &str) -> Option<String> {
    let text = read_to_string(file).ok()?;
    let line = text.lines().find(|line| line.starts_with(name))?;
    Some(line.split_once(':')?.1.trim().to_string())
}

pub fn words() -> String {
    let unknown = || "unknown".to_string();
    let processor = field("/proc/cpuinfo", "model name").unwrap_or_else(unknown);
    let cache = field("/proc/cpuinfo", "cache size").unwrap_or_else(unknown);
    let memory = field("/proc/meminfo", "MemTotal")
        .and_then(|kilobytes| kilobytes.split(' ').next()?.parse::<f64>().ok())
        .map_or_else(unknown, |kilobytes| format!("{:.0} GB", kilobytes / 1.0e6));
    let cores = std::thread::available_parallelism().map_or(0, |n| n.get());
    format!("{processor}, {cores} cores, cache {cache}, memory {memory}")
}
