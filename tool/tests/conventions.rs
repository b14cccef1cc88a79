//! What every command keeps to: help and version, exit statuses, outputs that cannot be written, readers
//! that go away, stable JSON fields; and that the man page, the completion and the README name the same.

mod common;

use common::{parchbeetle, program, ran, Folder, EXAMPLE, PLAN_A};
use second::bytes::pack;
use second::Plan;
use std::collections::BTreeSet;
use std::fs::File;
use std::io::{Read, Write};
use std::process::Stdio;

const COMMANDS: [&str; 8] = [
    "check", "budget", "table", "run", "build", "rescue", "encode", "decode",
];

/// The options of a command, by its help.
fn options(command: &str) -> BTreeSet<String> {
    let ran = parchbeetle(&[command, "--help"], b"");
    assert_eq!((ran.status, ran.said.as_str()), (Some(0), ""));
    let lines = ran.text().lines().filter(|line| line.starts_with("  --"));
    let names = lines.filter_map(|line| line.split_whitespace().next());
    names.map(str::to_string).collect()
}

#[test]
fn help_and_version_are_everywhere() {
    let version = format!("parchbeetle {}\n", env!("CARGO_PKG_VERSION"));
    let usage = parchbeetle(&["--help"], b"");
    assert_eq!(usage.status, Some(0));
    for command in COMMANDS {
        assert!(
            usage.text().contains(&format!("\n  {command} ")),
            "{command}"
        );
        for how in ["--help", "-h"] {
            let help = parchbeetle(&[command, how], b"");
            assert!(help
                .text()
                .starts_with(&format!("usage: parchbeetle {command} ")));
            assert!(help.text().ends_with(
                "exit status: 0 good, 1 refused by the rules, 2 wrong use or unreadable input\n"
            ));
        }
        for how in ["--version", "-V"] {
            assert_eq!(parchbeetle(&[command, how], b"").text(), version);
        }
        assert!(options(command).contains("--json"));
    }
    assert_eq!(parchbeetle(&["--version"], b"").text(), version);
    for text in [usage.text(), parchbeetle(&["run", "--help"], b"").text()] {
        assert!(
            text.lines().all(|line| line.chars().count() <= 110),
            "{text}"
        );
    }
}

#[test]
fn wrong_use_is_2() {
    for arguments in [
        &[][..],
        &["judge"],
        &["--all"],
        &["check", "--all"],
        &["check", "--json", "--json"],
        &["check", "--json=yes"],
        &["check", "a", "b"],
        &["table", "--svg"],
        &["budget", "plan"],
        &["run"],
        &["check", "no such file"],
        &["check", "/"],
    ] {
        let ran = parchbeetle(arguments, PLAN_A.as_bytes());
        assert_eq!((ran.status, ran.text()), (Some(2), ""), "{arguments:?}");
        assert!(
            ran.said.starts_with("parchbeetle: "),
            "{arguments:?}: {}",
            ran.said
        );
    }
    // A file whose name begins with a dash.
    assert!(parchbeetle(&["check", "--", "--json"], b"")
        .said
        .contains("--json: No such file"));
}

#[test]
fn an_output_that_cannot_be_written_is_an_error() {
    let folder = Folder::new("full");
    let plan = folder.file("plan.txt", PLAN_A);
    let script = folder.file("script.txt", EXAMPLE);
    let damaged = folder.file("damaged.bin", pack(&Plan::a()));
    for arguments in [
        &["check", &plan][..],
        &["check", &plan, "--json"],
        &["budget", &plan, "0"],
        &["table", &plan],
        &["run", &plan, &script],
        &["run", &plan, &script, "--gantt"],
        &["build", "2", "3:2"],
        &["rescue", &damaged],
        &["encode", &plan],
        &["decode", &plan],
        &["--help"],
    ] {
        let full = File::options().write(true).open("/dev/full").unwrap();
        let ran = program()
            .args(arguments)
            .stdout(full)
            .stderr(Stdio::piped())
            .output()
            .unwrap();
        assert_eq!(ran.status.code(), Some(2), "{arguments:?}");
        assert!(
            String::from_utf8(ran.stderr)
                .unwrap()
                .starts_with("parchbeetle: standard output: "),
            "{arguments:?}"
        );
    }
    for arguments in [
        &["table", &plan, "--svg", "/dev/full"][..],
        &["run", &plan, &script, "--svg", "/dev/full"],
        &["run", &plan, &script, "--html", "/no such folder/x"],
        &["budget", &plan, "0", "--write", "/dev/full"],
        &["build", "2", "3:2", "--write", "/dev/full"],
        &["rescue", &damaged, "--write", "/dev/full"],
        &["encode", &plan, "--write", "/dev/full"],
    ] {
        let ran = parchbeetle(arguments, b"");
        assert_eq!(ran.status, Some(2), "{arguments:?}");
        assert!(
            ran.said.contains("/dev/full: ") || ran.said.contains("folder/x: "),
            "{}",
            ran.said
        );
    }
}

#[test]
fn a_reader_that_goes_away_is_no_error() {
    let mut child = program()
        .args(["run", "-", "--random", "1", "--slices", "20000"])
        .stdin(Stdio::piped())
        .stdout(Stdio::piped())
        .stderr(Stdio::piped())
        .spawn()
        .unwrap();
    child
        .stdin
        .take()
        .unwrap()
        .write_all(PLAN_A.as_bytes())
        .unwrap();
    let mut first = [0; 7];
    let mut out = child.stdout.take().unwrap();
    out.read_exact(&mut first).unwrap();
    drop(out);
    let ended = child.wait_with_output().unwrap();
    assert_eq!((&first, ended.stderr.as_slice()), (b"plan ok", &[][..]));
    assert_eq!(ended.status.code(), Some(0));
}

#[test]
fn where_errors_cannot_be_told_the_status_is_all() {
    let full = || File::options().write(true).open("/dev/full").unwrap();
    let ran = program()
        .args(["check", "nowhere"])
        .stdout(full())
        .stderr(full())
        .status()
        .unwrap();
    assert_eq!(ran.code(), Some(2));
}

#[test]
fn the_fields_of_json_are_those_of_the_readme() {
    let folder = Folder::new("fields");
    let plan = folder.file("plan.txt", PLAN_A);
    let long = folder.file("long.txt", PLAN_A.replacen("length 6", "length 7", 1));
    let script = folder.file("script.txt", EXAMPLE);
    let mut bytes = pack(&Plan::a());
    bytes[2] |= 1;
    let damaged = folder.file("damaged.bin", bytes);
    let calls: [(&str, Vec<&str>); 9] = [
        ("check", vec!["check", &long, "--json", "--all-k"]),
        ("budget", vec!["budget", &plan, "0", "--json"]),
        ("table", vec!["table", &plan, "--json"]),
        ("run", vec!["run", &plan, &script, "--json"]),
        ("build", vec!["build", "2", "3:2", "--json"]),
        ("rescue", vec!["rescue", &damaged, "--json"]),
        ("encode", vec!["encode", &plan, "--json"]),
        ("decode", vec!["decode", &plan, "--json"]),
        ("faults", vec!["check", "--json"]),
    ];
    let readme = include_str!("../README.md");
    let quoted = |line: &str| -> BTreeSet<String> {
        let names = line.split('`').skip(1).step_by(2);
        names.map(str::to_string).collect()
    };
    let listed = |name: &str| -> BTreeSet<String> {
        let line = readme
            .lines()
            .find_map(|line| line.strip_prefix(&format!("| {name} | ")));
        quoted(line.unwrap_or_else(|| panic!("{name} is not in the README")))
    };
    let explained = readme.lines().filter(|line| line.starts_with("| `"));
    let explained: BTreeSet<String> = explained.flat_map(quoted).collect();
    let mut plans = BTreeSet::new();
    for (name, call) in calls {
        let ran = ran(program().args(&call), b"cards 9\n");
        let mut fields: BTreeSet<String> = ran.json().fields().into_iter().collect();
        // A plan has the same fields everywhere.
        plans.extend(
            fields
                .iter()
                .filter_map(|field| field.strip_prefix("plan."))
                .map(str::to_string),
        );
        fields.retain(|field| !field.starts_with("plan."));
        assert_eq!(fields, listed(name), "{name}");
        for field in &fields {
            let leaf = field.rsplit('.').next().unwrap().to_string();
            assert!(explained.contains(&leaf), "{leaf} is not explained");
        }
    }
    assert_eq!(plans, listed("plan"));
}

#[test]
fn the_man_page_and_the_completion_name_every_option() {
    let man = include_str!("../man/parchbeetle.1").replace("\\-", "-");
    let completion = include_str!("../completion/parchbeetle.bash");
    for command in COMMANDS {
        assert!(
            man.contains(&format!(".B parchbeetle {command}\n"))
                && man.contains(&format!(".B {command}\n")),
            "{command}"
        );
        let listed = completion
            .split_once(&format!("    {command}) options=\""))
            .expect(command)
            .1;
        let listed: BTreeSet<String> = listed
            .split('"')
            .next()
            .unwrap()
            .split(' ')
            .map(str::to_string)
            .collect();
        let mut own = options(command);
        for option in &own {
            assert!(
                man.contains(option),
                "{option} of {command} is not in the man page"
            );
        }
        own.remove("--help");
        own.remove("--version");
        assert_eq!(listed, own, "{command}");
    }
}

#[test]
fn the_man_page_is_set_without_a_warning() {
    let page = concat!(env!("CARGO_MANIFEST_DIR"), "/man/parchbeetle.1");
    let Ok(ran) = std::process::Command::new("groff")
        .args(["-man", "-ww", "-z", page])
        .output()
    else {
        eprintln!("not run: there is no groff");
        return;
    };
    assert!(
        ran.status.success() && ran.stderr.is_empty(),
        "{}",
        String::from_utf8_lossy(&ran.stderr)
    );
}

#[test]
fn bash_completes() {
    let completes = |words: &[&str]| {
        let script = format!(
            ". '{}/completion/parchbeetle.bash'; COMP_WORDS=({}); COMP_CWORD={}; _parchbeetle; echo \"${{COMPREPLY[*]}}\"",
            env!("CARGO_MANIFEST_DIR"),
            words.iter().map(|word| format!("'{word}'")).collect::<Vec<_>>().join(" "),
            words.len() - 1
        );
        let ran = std::process::Command::new("bash")
            .args(["--norc", "-c", &script])
            .output()
            .unwrap();
        assert!(
            ran.stderr.is_empty(),
            "{}",
            String::from_utf8_lossy(&ran.stderr)
        );
        String::from_utf8(ran.stdout)
            .unwrap()
            .trim_end()
            .to_string()
    };
    assert_eq!(completes(&["parchbeetle", "en"]), "encode");
    assert_eq!(completes(&["parchbeetle", "run", "--h"]), "--html --help");
    assert_eq!(
        completes(&["parchbeetle", "table", "--color", "a"]),
        "auto always"
    );
    assert_eq!(
        completes(&["parchbeetle", "check", "/dev/nul"]),
        "/dev/null"
    );
}
