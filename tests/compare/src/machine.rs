// The machine that a benchmark runs on, as Linux tells it.
use std::fs;

// What follows `name` and a colon on the first such line of a file.
fn told(file: &str, name: &str) -> String {
    let text = fs::read_to_string(file).unwrap_or_default();
    let line = text.lines().find(|line| line.starts_with(name));
    let value = line.and_then(|line| line.split_once(':')).map_or("unknown", |(_, value)| value.trim());
    value.to_string()
}

// Its cores, the model of its processor and its memory.
pub fn machine() -> String {
    let cores = std::thread::available_parallelism().map_or(0, |cores| cores.get());
    let kibibytes: f64 = told("/proc/meminfo", "MemTotal").trim_end_matches(" kB").parse().unwrap_or(0.0);
    let model = told("/proc/cpuinfo", "model name");
    format!("Machine: {cores} cores, {model}, {:.0} GiB of memory.", kibibytes / 1_048_576.0)
}
