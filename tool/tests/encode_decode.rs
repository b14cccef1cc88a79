//! `encode` and `decode`: plans as text, and back.

mod common;

use common::{parchbeetle, Folder, PLAN_A};
use generate::Generator;
use second::bytes::pack;
use second::plan::check;
use second::{read, Plan};

/// The bytes of a text that is taken without a word.
fn encoded(text: &str) -> Vec<u8> {
    let ran = parchbeetle(&["encode"], text.as_bytes());
    assert_eq!((ran.status, ran.said.as_str()), (Some(0), ""), "{text}");
    ran.output
}

/// What is said of a text that gives no bytes, by its status.
fn refused(status: i32, text: &str) -> String {
    let ran = parchbeetle(&["encode"], text.as_bytes());
    assert_eq!(ran.status, Some(status), "{text}\n{}", ran.said);
    assert!(ran.output.is_empty());
    ran.said.trim_end().replace("standard input", "plan")
}

fn decoded(bytes: &[u8]) -> String {
    let ran = parchbeetle(&["decode"], bytes);
    assert_eq!((ran.status, ran.said.as_str()), (Some(0), ""));
    String::from_utf8(ran.output).unwrap()
}

#[test]
fn plan_a_is_written_and_read_back() {
    assert_eq!(encoded(PLAN_A), pack(&Plan::a()));
    let text = decoded(&pack(&Plan::a()));
    assert!(text.starts_with("cards 2\nframe 4\nproject ceiling 1 budget 3  # project 0\n"));
    assert!(text.contains(
        "\nkind project 0 separation 8 deadline 8 length 6  # kind 0, k 1, worst in slice 0\n"
    ));
    assert!(text.ends_with("\n# admitted\n"));
    assert_eq!(encoded(&text), pack(&Plan::a()));
    // Both forms are told apart by content, so either may be given to either.
    assert_eq!(
        parchbeetle(&["encode"], &pack(&Plan::a())).output,
        pack(&Plan::a())
    );
    assert_eq!(decoded(PLAN_A.as_bytes()), text);
}

#[test]
fn lines_and_fields_stand_in_any_order() {
    let text = "\u{FEFF}# plan A\r\n\r\n\
        kind length 6 deadline 8 separation 8 project 0 # first\r\n\
        \tproject   budget 3 ceiling 1\r\n  frame 4#four\r\n\
        kind project dock separation 4 deadline 4 length 2\r\n\
        project dock ceiling 002 budget 5\r\n\
        kind project 1 separation 8 deadline 8 length 2\r\ncards 2";
    assert_eq!(encoded(text), pack(&Plan::a()));
}

#[test]
fn a_line_that_cannot_be_read_is_told_by_its_number() {
    for (old, new, said) in [
        ("frame 4", "frames 4", "plan:2: `frames` is not known; a line starts with `cards`, `frame`, `project` or `kind`\nplan: there is no `frame` line"),
        ("frame 4", "frame", "plan:2: `frame` is followed by one number"),
        ("frame 4", "frame 4 5", "plan:2: `frame` is followed by one number"),
        ("frame 4", "frame four", "plan:2: `four` is not a whole number"),
        ("frame 4", "frame -4", "plan:2: `-4` is not a whole number"),
        ("frame 4", "cards 4\nframe 4", "plan:2: `cards` was said on line 1 already"),
        ("frame 4", "", "plan: there is no `frame` line"),
        ("cards 2", "# cards 2", "plan: there is no `cards` line"),
        ("ceiling 2 budget 5", "ceiling 2", "plan:4: `budget` is missing; a project has `ceiling`, `budget`"),
        ("ceiling 2 budget 5", "ceiling 2 budget", "plan:4: `budget` has no number"),
        ("ceiling 2 budget 5", "ceiling 2 ceiling 2 budget 5", "plan:4: `ceiling` is said twice"),
        ("kind dock", "kind 7dock", "plan:6: `7dock` is no name: a name begins with a letter"),
        ("kind dock", "kind do/ck", "plan:6: `do/ck` is no name: a name has letters, digits, `-`, `_` and `.`"),
        ("kind dock", "kind slice", "plan:6: `slice` is no name: it has a meaning of its own"),
        ("kind dock", "kind fold", "plan:6: the kind on line 5 is called `fold` already"),
        ("project docking ceiling", "project folding ceiling 1 budget 1\nproject docking ceiling", "plan:4: the project on line 3 is called `folding` already\nplan: the budgets sum to 9, above 8, the cards times the frame (refused 7 at 0)"),
        ("kind dock project docking", "kind dock project dokking", "plan:6: no project is called `dokking`"),
        ("length 6", "length ?", "plan:5: `?` is not a whole number"),
    ] {
        let text = PLAN_A.replacen(old, new, 1);
        assert_eq!(refused(2, &text), said);
    }
    let text = PLAN_A.replacen("deadline 4", "D 4", 1);
    assert!(refused(2, &text).starts_with(
        "plan:6: `D` is not known here; a kind has `project`, `separation`, `deadline`, `length`"
    ));
    let wide: Vec<u8> = format!("\u{FEFF}{PLAN_A}")
        .encode_utf16()
        .flat_map(u16::to_le_bytes)
        .collect();
    let ran = parchbeetle(&["encode"], &wide);
    assert_eq!(
        (ran.status, ran.said.as_str()),
        (
            Some(2),
            "parchbeetle: standard input: this is text in UTF-16; save it as UTF-8\n"
        )
    );
    let mut bytes = PLAN_A.as_bytes().to_vec();
    bytes.splice(8..8, *b"# \xFF\n");
    let ran = parchbeetle(&["encode"], &bytes);
    assert_eq!(
        (ran.status, ran.said.as_str()),
        (Some(2), "standard input:2: this is not text\n")
    );
}

#[test]
fn the_plans_own_refusal_is_told_with_its_line() {
    let more_kinds = "kind project 0 separation 8 deadline 8 length 6\n".repeat(17);
    for (old, new, said) in [
        ("cards 2", "cards 9", "plan:1: cards 9 is not 1 to 8 (refused 2 at 0)"),
        ("cards 2", "cards 258", "plan:1: cards 258 is not 1 to 8 (refused 2 at 0)"),
        ("frame 4", "frame 65", "plan:2: frame 65 is not 1 to 64 (refused 2 at 0)"),
        ("frame 4", "frame 99999999999999999999", "plan:2: frame 99999999999999999999 is not 1 to 64 (refused 2 at 0)"),
        ("kind fold", &format!("{more_kinds}kind fold"), "plan: there are 20 kinds, not 1 to 16 (refused 2 at 0)"),
        ("ceiling 2", "ceiling 3", "plan:4: project 1 (docking): ceiling 3 is not 1 to 2, the cards (refused 4 at 1)"),
        (
            "budget 3",
            "budget 5",
            "plan:3: project 0 (folding): budget 5 is not 1 to 4, the ceiling times the frame (refused 4 at 0); \
             budget 3 is the smallest that serves project 0 (folding)",
        ),
        (
            "budget 5",
            "budget 0",
            "plan:4: project 1 (docking): budget 0 is not 1 to 8, the ceiling times the frame (refused 4 at 1); \
             budget 4 is the smallest that serves project 1 (docking)",
        ),
        ("kind dock project docking", "kind dock project 256", "plan:6: kind 1 (dock): there is no project 256 (refused 5 at 1)"),
        ("separation 4", "separation 3", "plan:6: kind 1 (dock): deadline 4 is not 1 to 3, the separation (refused 6 at 1)"),
        ("separation 4", "separation 65540", "plan:6: kind 1 (dock): separation 65540 is not 1 to 4095 (refused 6 at 1)"),
        ("length 6", "length 0", "plan:5: kind 0 (fold): length 0 is not 1 to 8, the deadline (refused 6 at 0)"),
        (
            "budget 5",
            "budget 6",
            "plan: the budgets sum to 9, above 8, the cards times the frame (refused 7 at 0); \
             budget 4 is the smallest that serves project 1 (docking)",
        ),
    ] {
        let text = PLAN_A.replacen(old, new, 1);
        assert_eq!(refused(1, &text), said);
    }
    assert_eq!(
        refused(1, "cards 2\nframe 4\n"),
        "plan: there are 0 projects, not 1 to 8 (refused 2 at 0)\nplan: there are 0 kinds, not 1 to 16 (refused 2 at 0)"
    );
}

#[test]
fn all_faults_are_told_at_once() {
    let text = "cards 9\nframe 0\nproject ceiling 9 budget 600\nproject a ceiling 1 budget\nproject a ceiling 1 budget 1\n\
        kind project b separation 5000 deadline 0 length 1\nkind project 7 separation 4 deadline 5 length 6\nkinds\n";
    let said = refused(2, text);
    let lines: Vec<&str> = said.lines().collect();
    let at: Vec<&str> = lines
        .iter()
        .map(|line| line.split_once(": ").unwrap().0)
        .collect();
    assert_eq!(
        at,
        [
            "plan:1", "plan:2", "plan:3", "plan:3", "plan:4", "plan:5", "plan:6", "plan:6",
            "plan:6", "plan:7", "plan:7", "plan:7", "plan:8"
        ],
        "{said}"
    );
}

#[test]
fn a_plan_that_is_not_admitted_has_bytes_and_a_note() {
    let text = PLAN_A.replacen("length 6", "length 7", 1);
    let ran = parchbeetle(&["encode"], text.as_bytes());
    assert_eq!(ran.status, Some(0));
    assert_eq!(
        ran.said,
        "parchbeetle: standard input:5: not admitted: kind 0 (fold) is too long by 1 when it arrives in slice 0 of the frame, \
         and would fit with length 6 (refused 8 at 0); budget 4 would serve project 0 (folding), but the others leave 3; \
         the bytes are written all the same\n"
    );
    let mut longer = Plan::a();
    longer.kinds[0].length = 7;
    assert_eq!(ran.output, pack(&longer));
    assert!(decoded(&ran.output).ends_with(
        "\n# the plan is not admitted (refused 8 at 0): \
         kind 0 is too long by 1 when it arrives in slice 0 of the frame, and would fit with length 6; \
         budget 4 would serve project 0, but the others leave 3\n"
    ));

    // The slice is that of the verdict: three slices from slice 1 on hold 2.
    for (length, said) in [
        (2, "kind 0, k 1, worst in slice 1"),
        (3, "too long by 1 when it arrives in slice 1 of the frame"),
    ] {
        let mut due = Plan::a();
        (due.kinds[0].deadline, due.kinds[0].length) = (3, length);
        assert!(decoded(&pack(&due)).contains(said), "{length}");
    }

    // P9: what the others ask for is all there is.
    let opening = Plan::of(2, 1, &[(2, 2)], &[(0, 3, 3, 2), (0, 6, 6, 4), (0, 6, 6, 3)]);
    assert!(decoded(&pack(&opening)).contains(
        "(refused 8 at 0): kind 0 would be too long at any length; no budget serves project 0"
    ));

    // With room in the rack the budget that would do is told.
    let text = text.replacen("budget 5", "budget 4", 1);
    let ran = parchbeetle(&["encode"], text.as_bytes());
    assert!(
        ran.said
            .contains("budget 4 is the smallest that serves project 0"),
        "{}",
        ran.said
    );
}

#[test]
fn a_budget_left_open_is_the_smallest_that_serves() {
    for (place, project, budget) in [("budget 3", 0, 3), ("budget 5", 1, 4)] {
        let ran = parchbeetle(
            &["encode"],
            PLAN_A.replacen(place, "budget ?", 1).as_bytes(),
        );
        assert_eq!(ran.status, Some(0));
        let called = ["folding", "docking"][project];
        let said = format!("parchbeetle: budget {budget} is the smallest that serves project {project} ({called})\n");
        assert_eq!(ran.said, said);
        let mut plan = Plan::a();
        plan.projects[project].budget = budget;
        assert_eq!(ran.output, pack(&plan));
    }
    let open = PLAN_A.replacen("budget 5", "budget ?", 1);
    for (status, old, new, said) in [
        (2, "budget 3", "budget ?", "plan:4: the budget on line 3 is left open already"),
        (1, "ceiling 2", "ceiling 3", "plan:4: project 1 (docking): ceiling 3 is not 1 to 2, the cards (refused 4 at 1)"),
        (
            1,
            "deadline 4 length 2",
            "deadline 4 length 4",
            "plan:4: no budget serves project 1 (docking): even with all cells of its ceiling kind 1 (dock) is too long by 1 \
             when it arrives in slice 0 of the frame, and would fit with length 3 (refused 8 at 1)",
        ),
        (
            1,
            "ceiling 1 budget 3",
            "ceiling 2 budget 5",
            "plan:4: budget 4 would serve project 1 (docking), but the others leave 3 (refused 7 at 0)",
        ),
    ] {
        let text = open.replacen(old, new, 1);
        assert_eq!(refused(status, &text), said);
    }
}

#[test]
fn names_and_comments_survive() {
    let folder = Folder::new("names");
    let text = "# The rack.\r\ncards 2 # two\nframe   4\n\nproject folding ceiling 1 budget 3      # three cells\n\
        project ceiling 2 budget 5\n  kind fold-a project folding separation 8 deadline 8 length 06 #long\n\
        kind project 1 separation 4 deadline 4 length 2\nkind x project 1 separation 8 deadline 8 length 2\n# end";
    let names = folder.file("rack.txt", text);
    let bytes = folder.file("rack.bin", encoded(text));
    let ran = parchbeetle(&["decode", &bytes, "--names", &names], b"");
    assert_eq!(
        (ran.status, ran.said.as_str(), ran.text()),
        (Some(0), "", text)
    );

    // Numbers are those of the bytes, and the comment keeps its column.
    let mut plan = Plan::a();
    plan.projects[0].budget = 12;
    plan.frame = 16;
    let changed = folder.file("changed.bin", pack(&plan));
    let ran = parchbeetle(&["decode", &changed, "--names", &names], b"");
    let expected = text
        .replace("frame   4", "frame   16")
        .replace("budget 3      #", "budget 12     #");
    assert_eq!((ran.status, ran.text()), (Some(0), expected.as_str()));

    // Places that are not there are left out, and those without a line get one.
    let mut plan = Plan::of(2, 4, &[(1, 3)], &[(0, 8, 8, 6)]);
    let fewer = folder.file("fewer.bin", pack(&plan));
    let ran = parchbeetle(&["decode", &fewer, "--names", &names], b"");
    assert_eq!(encoded(ran.text()), pack(&plan));
    assert!(
        ran.text().contains("kind fold-a project folding")
            && ran.said.contains("has 2 projects, and the plan 1")
    );
    plan = Plan::of(
        2,
        4,
        &[(1, 2), (1, 2), (1, 2)],
        &[(2, 8, 8, 1), (1, 8, 8, 1), (0, 8, 8, 1), (0, 8, 8, 1)],
    );
    let more = folder.file("more.bin", pack(&plan));
    let ran = parchbeetle(&["decode", &more, "--names", &names], b"");
    assert_eq!(encoded(ran.text()), pack(&plan), "{}", ran.text());

    // Names that cannot be had.
    let ran = parchbeetle(&["decode", &bytes, "--names", &bytes], b"");
    assert_eq!(ran.status, Some(2));
    let bad = folder.file("bad.txt", "cards two\n");
    let ran = parchbeetle(&["decode", &bytes, "--names", &bad], b"");
    assert_eq!(ran.status, Some(2));
    assert!(
        ran.said.contains("bad.txt:1: `two` is not a whole number"),
        "{}",
        ran.said
    );
    assert_eq!(
        parchbeetle(&["decode", "-", "--names", "-"], b"").status,
        Some(2)
    );
}

#[test]
fn refused_bytes_and_bytes_that_follow() {
    let mut bytes = pack(&Plan::a());
    let ran = parchbeetle(&["decode"], &bytes[..21]);
    assert_eq!(ran.status, Some(1));
    assert_eq!(
        ran.said,
        "standard input: fewer bytes than a plan takes (refused 1 at 0)\n"
    );
    bytes.extend([1, 2, 3]);
    assert!(decoded(&bytes).ends_with("\n# 3 more bytes follow the plan\n"));
    bytes[21] |= 1;
    let ran = parchbeetle(&["decode"], &bytes);
    assert_eq!(
        ran.said,
        "standard input: a spare bit or an unused place is not zero (refused 3 at 0)\n"
    );
    assert!(ran.output.is_empty());
    let mut high = pack(&Plan::a());
    high[5] = 0x30;
    let ran = parchbeetle(&["decode"], &high);
    assert_eq!(ran.said, "standard input: project 1: a project's ceiling or budget is out of range (refused 4 at 1)\n");
}

#[test]
fn generated_plans_come_back_as_they_were() {
    let mut generator = Generator::new(41);
    for _ in 0..25 {
        let plan = generator.good_plan();
        assert!(check(&plan).is_good());
        let text = decoded(&pack(&plan));
        let ran = parchbeetle(&["encode"], text.as_bytes());
        assert_eq!(read(&ran.output).1, plan);
        assert_eq!(ran.output, pack(&plan));
    }
}
