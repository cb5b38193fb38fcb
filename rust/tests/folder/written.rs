//! Commands as documents show them, with what they print below each.

use super::Folder;
use std::path::Path;
use std::process::Command;

/// A command of a document, and the lines that stand below it.
pub struct Example<'a> {
    pub command: &'a str,
    pub shown: Vec<&'a str>,
}

/// The commands of a text: its lines of code that begin with a dollar sign.
pub fn examples(text: &str) -> Vec<Example<'_>> {
    let mut examples: Vec<Example> = Vec::new();
    for line in text.lines().filter_map(|line| line.strip_prefix("    ")) {
        match (line.strip_prefix("$ "), examples.last_mut()) {
            (Some(command), _) => examples.push(Example { command, shown: Vec::new() }),
            (None, Some(example)) => example.shown.push(line),
            (None, None) => panic!("{line} stands below no command"),
        }
    }
    examples
}

/// Printed between the outputs of commands.
const BETWEEN: &str = "-- the next command --";

/// Runs commands in one shell, and gives what each prints.
pub fn printed(folder: &Folder, commands: &[&str]) -> Vec<String> {
    let tool = Path::new(env!("CARGO_BIN_EXE_tuormik")).parent().expect("a folder");
    let path = format!("{}:{}", tool.display(), std::env::var("PATH").unwrap_or_default());
    let script = commands.join(&format!("\necho '{BETWEEN}'\n"));
    let output = Command::new("sh").args(["-c", &format!("exec 2>&1\n{script}")]).env("PATH", path).current_dir(&folder.0).output();
    let text = String::from_utf8(output.expect("a shell").stdout).expect("text");
    let printed: Vec<String> = text.split(&format!("{BETWEEN}\n")).map(str::to_string).collect();
    assert_eq!(printed.len(), commands.len(), "{printed:?}");
    printed
}
