//! The outputs of docs/TUTORIAL.md are still true: its commands are run in order, in an empty folder, and
//! each has to print what stands under it. With UPDATE_TUTORIAL set, what they print is written there.

mod common;

use common::Folder;
use std::path::Path;
use std::process::Command;

const START: &str = "```console";
const END: &str = "```";

/// A command as a shell takes it, and its lines in the tutorial: `$ ` before the first, `> ` before others.
struct Call {
    shell: String,
    lines: Vec<String>,
}

/// What a command prints on both streams, and its exit status.
fn printed(call: &Call, folder: &Path, before: Option<i32>) -> (String, Option<i32>) {
    if call.shell == "echo $?" {
        return (format!("{}\n", before.unwrap_or(-1)), Some(0));
    }
    let program = Path::new(env!("CARGO_BIN_EXE_parchbeetle"));
    let mut path = program.parent().unwrap().as_os_str().to_os_string();
    path.push(":");
    path.push(std::env::var_os("PATH").unwrap_or_default());
    let ran = Command::new("sh")
        .args(["-c", &format!("exec 2>&1\n{}", call.shell)])
        .current_dir(folder)
        .env("PATH", path)
        .env("LC_ALL", "C")
        .output()
        .unwrap();
    (String::from_utf8(ran.stdout).unwrap(), ran.status.code())
}

#[test]
fn the_tutorial_is_true() {
    let file = Path::new(env!("CARGO_MANIFEST_DIR")).join("../docs/TUTORIAL.md");
    let tutorial = std::fs::read_to_string(&file).unwrap();
    let folder = Folder::new("tutorial");
    let mut now = String::new();
    let mut inside = false;
    let mut status = None;
    let mut calls = 0;
    let mut lines = tutorial.lines().peekable();
    while let Some(line) = lines.next() {
        if inside && line == END {
            inside = false;
        }
        if !inside {
            inside = line == START;
            now += &format!("{line}\n");
            continue;
        }
        // Outputs are left out and made anew.
        let Some(first) = line.strip_prefix("$ ") else {
            continue;
        };
        let mut call = Call {
            shell: first.to_string(),
            lines: vec![line.to_string()],
        };
        while let Some(more) = lines.next_if(|line| *line == ">" || line.starts_with("> ")) {
            call.shell += &format!("\n{}", more.strip_prefix("> ").unwrap_or(""));
            call.lines.push(more.to_string());
        }
        let (output, ended) = printed(&call, folder.folder(), status);
        status = ended;
        calls += 1;
        now += &format!("{}\n{output}", call.lines.join("\n"));
        if !now.ends_with('\n') {
            now.push('\n');
        }
    }
    assert!(
        calls >= 12,
        "the tutorial has its commands in blocks of {START}"
    );
    if std::env::var_os("UPDATE_TUTORIAL").is_some() {
        std::fs::write(&file, &now).unwrap();
    }
    for (at, (said, true_now)) in tutorial.lines().zip(now.lines()).enumerate() {
        assert_eq!(said, true_now, "docs/TUTORIAL.md, line {}", at + 1);
    }
    assert_eq!(tutorial, now);
}
