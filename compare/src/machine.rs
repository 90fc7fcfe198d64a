//! What the machine says of itself, for the benchmark's page.

use std::{env::consts, fs, process::Command};

/// A line for each thing that bears on the times.
pub fn description() -> Vec<String> {
    let threads = std::thread::available_parallelism().map_or(1, usize::from);
    let memory = field("/proc/meminfo", "MemTotal").unwrap_or_else(|| "unknown".to_string());
    vec![
        format!(
            "Processor: {} ({}), {threads} cores",
            processor(),
            consts::ARCH
        ),
        format!("Memory: {memory}"),
        format!("System: {}", said("uname", &["-sr"])),
        format!("Rust: {}", said("rustc", &["--version"])),
        format!("Rattle: {}", said("rt", &["version"])),
        "Library: as `rt lib` writes it".to_string(),
    ]
}

/// The processor's name, or the numbers of its maker and kind where it has none.
fn processor() -> String {
    field("/proc/cpuinfo", "model name").unwrap_or_else(|| {
        let part = |name| field("/proc/cpuinfo", name).unwrap_or_else(|| "unknown".to_string());
        format!(
            "implementer {}, part {}",
            part("CPU implementer"),
            part("CPU part")
        )
    })
}

/// The first field of this name in a file of lines like `name : value`.
fn field(file: &str, name: &str) -> Option<String> {
    let text = fs::read_to_string(file).ok()?;
    let mut fields = text.lines().filter_map(|line| line.split_once(':'));
    let (_, value) = fields.find(|(key, _)| key.trim() == name)?;
    Some(value.trim().to_string())
}

/// What a command says in its first line.
fn said(command: &str, words: &[&str]) -> String {
    let output = Command::new(command).args(words).output();
    let text = output.map(|output| String::from_utf8_lossy(&output.stdout).into_owned());
    let first = text
        .ok()
        .and_then(|text| text.lines().next().map(str::to_string));
    first.unwrap_or_else(|| "unknown".to_string())
}
