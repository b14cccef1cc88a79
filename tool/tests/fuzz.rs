//! Whole commands on inputs that nobody would write: each ends with 0, 1 or 2 and a clear word, and none
//! panics. (Many more inputs go through the same reading in `src/subject.rs`.)

mod common;

use common::{parchbeetle, program, ran, Folder, PLAN_A};
use generate::Generator;
use second::bytes::pack;

/// Every command on this plan.
fn answered(folder: &Folder, bytes: &[u8]) {
    let plan = folder.file("plan", bytes);
    let calls: [&[&str]; 7] = [
        &["check", &plan, "--all-k"],
        &["table", &plan, "--color", "always"],
        &["budget", &plan, "1"],
        &[
            "run",
            &plan,
            "--random",
            "3",
            "--slices",
            "20",
            "--gantt",
            "--html",
            "/dev/null",
            "--svg",
            "/dev/null",
        ],
        &["encode", &plan, "--json"],
        &["run", &plan, &plan],
        &["rescue", &plan],
    ];
    for call in calls {
        let ran = parchbeetle(call, b"");
        assert!(matches!(ran.status, Some(0..=2)), "{call:?}: {ran:?}");
        assert!(!ran.said.contains("panicked"), "{call:?}: {ran:?}");
        if ran.status == Some(2) {
            assert!(
                !ran.said.is_empty() && ran.output.is_empty() || call.contains(&"--json"),
                "{call:?}: {ran:?}"
            );
        }
    }
}

#[test]
fn commands_answer_anything() {
    let folder = Folder::new("fuzz");
    let mut generator = Generator::new(5);
    for round in 0..24 {
        let bytes = match round % 4 {
            // Text with a few letters changed, plan bytes with a few bits flipped, plans at their limits, any bytes.
            0 => {
                let mut text = PLAN_A.as_bytes().to_vec();
                for _ in 0..3 {
                    let at = generator.below(text.len() as u64) as usize;
                    text[at] = b"0123456789 \n#?x"[generator.below(15) as usize];
                }
                text
            }
            1 => {
                let mut bytes = pack(&generator.admitted_plan());
                for _ in 0..generator.below(3) {
                    let at = generator.below(bytes.len() as u64) as usize;
                    bytes[at] ^= 1 << generator.below(8);
                }
                bytes
            }
            2 => pack(&generator.good_plan()),
            _ => (0..generator.below(60))
                .map(|_| generator.below(256) as u8)
                .collect(),
        };
        answered(&folder, &bytes);
    }
    for text in [
        "9".repeat(1 << 18),
        format!("cards {}", "1 ".repeat(1 << 16)),
        "slice 1\n".repeat(1000),
    ] {
        answered(&folder, text.as_bytes());
    }
}

#[test]
fn arguments_answer_anything() {
    let words = [
        "check",
        "run",
        "build",
        "budget",
        "table",
        "encode",
        "decode",
        "-",
        "--",
        "--json",
        "--svg",
        "--random",
        "--slices",
        "7",
        "99999999999999999999",
        "",
        "=",
        "--=",
        "--json=",
        "--slices=",
        "é",
        "3:2",
        ":",
        "--color",
        "never",
        "/dev/null",
        "/",
        "-h",
    ];
    // An option may name a file to write.
    let folder = Folder::new("arguments");
    let mut generator = Generator::new(6);
    for _ in 0..150 {
        let count = generator.below(6) as usize;
        let call: Vec<&str> = (0..count)
            .map(|_| words[generator.below(words.len() as u64) as usize])
            .collect();
        let ran = ran(
            program().args(&call).current_dir(folder.folder()),
            PLAN_A.as_bytes(),
        );
        assert!(matches!(ran.status, Some(0..=2)), "{call:?}: {ran:?}");
        assert!(!ran.said.contains("panicked"), "{call:?}: {ran:?}");
    }
}

/// Names and arguments that are not UTF-8 are names and arguments all the same.
#[test]
fn odd_file_names() {
    use std::os::unix::ffi::OsStrExt;
    let folder = Folder::new("odd-names");
    let name = std::ffi::OsStr::from_bytes(b"plan\xFF\n.txt");
    std::fs::write(folder.folder().join(name), PLAN_A).unwrap();
    let ran_here = |name: &std::ffi::OsStr| {
        ran(
            program()
                .arg("check")
                .arg(name)
                .current_dir(folder.folder()),
            b"",
        )
    };
    let good = ran_here(name);
    assert_eq!((good.status, good.said.as_str()), (Some(0), ""));
    let none = ran_here(std::ffi::OsStr::from_bytes(b"no\x1b[31m\xFE"));
    assert_eq!((none.status, none.said.contains('\x1b')), (Some(2), false));
}
