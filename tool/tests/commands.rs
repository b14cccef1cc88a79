//! Each command on good, refused and malformed input.

mod common;

use common::{parchbeetle, ran, Folder, Value, EXAMPLE, PLAN_A};
use generate::{release_bytes, Generator, SLICE};
use second::bytes::pack;
use second::Plan;

fn lines(text: &str) -> Vec<&str> {
    text.lines().collect()
}

// ---- check

#[test]
fn check_tells_the_verdict_and_its_figures() {
    for input in [PLAN_A.as_bytes(), &pack(&Plan::a())] {
        let ran = parchbeetle(&["check"], input);
        assert_eq!((ran.status, ran.said.as_str()), (Some(0), ""));
        assert!(
            ran.text()
                .starts_with("standard input: admitted: every unit will be in time\n\nkind "),
            "{}",
            ran.text()
        );
    }
    let ran = parchbeetle(&["check", "--all-k"], PLAN_A.as_bytes());
    let rows: Vec<Vec<&str>> = ran
        .text()
        .lines()
        .skip(2)
        .take(6)
        .map(|line| line.split_whitespace().collect())
        .collect();
    assert_eq!(
        rows,
        [
            vec![
                "kind", "project", "T", "D", "C", "W", "k", "asks", "gets", "room", "longest",
                "bad", "slice"
            ],
            vec!["fold", "folding", "8", "8", "6", "0", "1", "6", "6", "0", "6", "0"],
            // "Plan A's kind 1 then asks 4 + 2 against 5": the next k.
            vec!["dock", "docking", "4", "4", "2", "2", "1", "4", "4", "0", "2", "0"],
            vec!["(2)", "6", "5", "-1", "0"],
            vec!["long", "docking", "8", "8", "2", "4", "1", "6", "8", "2", "4", "0"],
            vec!["(2)", "8", "10", "2", "0"],
        ]
    );
}

#[test]
fn check_tells_every_kind_that_does_not_fit() {
    let folder = Folder::new("check");
    let text = PLAN_A
        .replacen("length 6", "length 7", 1)
        .replacen("length 2\n", "length 3\n", 1);
    let file = folder.file("long.txt", &text);
    let ran = parchbeetle(&["check", &file], b"");
    assert_eq!((ran.status, ran.said.as_str()), (Some(1), ""));
    let told = ran.text();
    assert!(
        told.contains("not admitted (refused 8 at 0): 2 of 3 kinds do not fit\n"),
        "{told}"
    );
    let fold = format!("\n{file}:5: kind 0 (fold) is too long by 1 when it arrives in slice 0 of the frame, and would fit with length 6; ");
    let dock = format!("\n{file}:6: kind 1 (dock) is too long by 1 when it arrives in slice 0 of the frame, and would fit with length 2; ");
    assert!(told.contains(&fold) && told.contains(&dock), "{told}");
    assert!(
        told.contains("budget 4 would serve project 0 (folding), but the others leave 3"),
        "{told}"
    );
    assert!(!told.contains(":7: "), "{told}");

    let json = parchbeetle(&["check", "--json", "--all-k", &file], b"");
    assert_eq!(json.status, Some(1));
    let json = json.json();
    assert_eq!(json.at("good"), &Value::Truth(false));
    assert_eq!(
        ["number", "place", "excess", "slice"].map(|name| json.at(name).number()),
        [8, 0, 1, 0]
    );
    let fits: Vec<&Value> = json
        .at("kinds")
        .list()
        .iter()
        .map(|kind| kind.at("fits"))
        .collect();
    assert_eq!(
        fits,
        [
            &Value::Truth(false),
            &Value::Truth(false),
            &Value::Truth(true)
        ]
    );
    let dock = json.at("kinds").nth(1);
    assert_eq!(
        ["excess", "longest", "workload", "room", "line"].map(|name| dock.at(name).number()),
        [1, 2, 2, -1, 6]
    );
    assert_eq!(dock.at("all_k").list().len(), 2);
}

#[test]
fn check_advises_a_budget() {
    let text = PLAN_A.replacen("budget 3", "budget 2", 1);
    let ran = parchbeetle(&["check"], text.as_bytes());
    assert_eq!(ran.status, Some(1));
    let said = "standard input:5: kind 0 (fold) is too long by 2 when it arrives in slice 0 of the frame, and would fit with \
                length 4; budget 3 is the smallest that serves project 0 (folding)\n";
    assert!(ran.text().contains(said), "{}", ran.text());
}

#[test]
fn check_tells_faults_in_json_too() {
    let ran = parchbeetle(&["check", "--json"], b"cards 9\nframe four\n");
    assert_eq!(ran.status, Some(2));
    let json = ran.json();
    let faults = json.at("faults").list();
    assert_eq!(faults.len(), 4, "{}", ran.said);
    assert_eq!(
        (
            faults[0].at("line").number(),
            faults[0].at("number").number()
        ),
        (1, 2)
    );
    assert_eq!(
        (faults[1].at("line").number(), faults[1].at("number")),
        (2, &Value::Null)
    );
    let ran = parchbeetle(&["check", "--json"], &[0x22, 0x18, 0x40]);
    assert_eq!(
        (
            ran.status,
            ran.json().at("faults").nth(0).at("number").number()
        ),
        (Some(1), 1)
    );
}

// ---- budget

#[test]
fn budget_finds_and_writes() {
    let folder = Folder::new("budget");
    let text = PLAN_A.replacen("budget 5", "budget 5  # a guess", 1);
    let file = folder.file("plan.txt", &text);
    let written = folder.path("out.txt");
    let ran = parchbeetle(&["budget", &file, "docking", "--write", &written], b"");
    let said = "budget 4 is the smallest that serves project 1 (docking); it has 5\nwith it the plan is admitted\n";
    assert_eq!((ran.status, ran.text()), (Some(0), said));
    assert_eq!(
        folder.read("out.txt"),
        text.replacen("budget 5", "budget 4", 1)
    );

    let bytes = folder.file("plan.bin", pack(&Plan::a()));
    let ran = parchbeetle(&["budget", &bytes, "1", "--write", &written, "--json"], b"");
    assert_eq!(ran.json().at("smallest_budget").number(), 4);
    let mut plan = Plan::a();
    plan.projects[1].budget = 4;
    assert_eq!(std::fs::read(&written).unwrap(), pack(&plan));

    // 27, 8, 7, no such name, no such file.
    for (plan, project, status, said) in [
        (
            PLAN_A.to_string(),
            "2",
            1,
            "there is no such project (refused 27 at 0)",
        ),
        (
            PLAN_A.to_string(),
            "foldng",
            2,
            "no project is called `foldng`",
        ),
        (
            PLAN_A.replacen("length 2", "length 4", 1),
            "docking",
            1,
            "no budget serves project 1 (docking): even with",
        ),
        (
            PLAN_A.replacen("length 6", "length 7", 1),
            "folding",
            1,
            "but the others leave 3 (refused 7 at 0)",
        ),
        (
            "cards".to_string(),
            "0",
            2,
            "`cards` is followed by one number",
        ),
    ] {
        let ran = parchbeetle(&["budget", "-", project], plan.as_bytes());
        assert_eq!(ran.status, Some(status), "{}", ran.said);
        assert!(ran.said.contains(said), "{}", ran.said);
    }
    assert_eq!(
        parchbeetle(&["budget", "nowhere", "0"], b"").status,
        Some(2)
    );
}

// ---- table

#[test]
fn table_draws_the_slots() {
    let folder = Folder::new("table");
    let svg = folder.path("table.svg");
    let ran = parchbeetle(&["table", "--svg", &svg], PLAN_A.as_bytes());
    assert_eq!((ran.status, ran.said.as_str()), (Some(0), ""));
    let expected = "2 cards, a frame of 4 slices\n\nslice   0123\ncard 0  AAAB\ncard 1  BBBB\n\n\
        A  project 0 (folding): ceiling 1, budget 3\nB  project 1 (docking): ceiling 2, budget 5\n.  0 cells free\n";
    assert_eq!(ran.text(), expected);
    let picture = folder.read("table.svg");
    well_formed(&picture);
    assert_eq!(picture.matches("<rect").count(), 1 + 8 + 2);
    assert!(picture.contains("card 0, slice 3: project 1 (docking)"));

    let free = PLAN_A.replacen("budget 5", "budget 4", 1);
    let ran = parchbeetle(&["table"], free.as_bytes());
    assert!(ran.text().contains("card 1  BBB.\n"), "{}", ran.text());
    let json = parchbeetle(&["table", "--json"], free.as_bytes()).json();
    assert_eq!(json.at("free_cells").number(), 1);
    assert_eq!(
        json.at("cards").nth(1),
        &Value::List([2, 2, 2, 0].map(Value::Number).to_vec())
    );

    // A plan that is not admitted has a table too; one with faults has none.
    let ran = parchbeetle(
        &["table"],
        PLAN_A.replacen("length 6", "length 7", 1).as_bytes(),
    );
    assert_eq!((ran.status, ran.text()), (Some(0), expected));
    assert!(ran.said.contains("refused 8 at 0"), "{}", ran.said);
    let ran = parchbeetle(
        &["table"],
        PLAN_A.replacen("budget 5", "budget 6", 1).as_bytes(),
    );
    assert_eq!((ran.status, ran.text()), (Some(1), ""));
}

#[test]
fn colours_are_for_terminals() {
    let coloured = parchbeetle(&["table", "--color", "always"], PLAN_A.as_bytes());
    assert!(coloured.text().contains("\x1b[30;44mA\x1b[0m"));
    for arguments in [
        &["table"][..],
        &["table", "--color=never"],
        &["table", "--color", "auto"],
    ] {
        assert!(!parchbeetle(arguments, PLAN_A.as_bytes())
            .text()
            .contains('\x1b'));
    }
    assert_eq!(
        parchbeetle(&["table", "--color", "blue"], PLAN_A.as_bytes()).status,
        Some(2)
    );

    // On a terminal there are colours, unless NO_COLOR is set: `script` of util-linux makes one.
    let folder = Folder::new("terminal");
    let file = folder.file("plan.txt", PLAN_A);
    let call = format!("{} table {file}", env!("CARGO_BIN_EXE_parchbeetle"));
    let terminal = |no_colour: bool| {
        let mut command = std::process::Command::new("script");
        command
            .args(["-qec", &call, "/dev/null"])
            .env_remove("NO_COLOR");
        if no_colour {
            command.env("NO_COLOR", "1");
        }
        command
    };
    if terminal(false)
        .stdin(std::process::Stdio::null())
        .output()
        .is_err()
    {
        eprintln!("not run: there is no `script` to make a terminal with");
        return;
    }
    assert!(ran(&mut terminal(false), b"")
        .text()
        .contains("\x1b[30;44mA"));
    assert!(!ran(&mut terminal(true), b"")
        .text()
        .contains("\x1b[30;44mA"));
}

// ---- run

#[test]
fn run_prints_what_play_prints() {
    let folder = Folder::new("run");
    let plan = folder.file("plan.txt", PLAN_A);
    let script = folder.file("script.txt", format!("# the example\n{EXAMPLE}"));
    let ran = parchbeetle(&["run", &plan, &script], b"");
    assert_eq!((ran.status, ran.said.as_str()), (Some(1), ""));
    let example = include_str!("../../samples/example.txt");
    let rest = ran
        .text()
        .strip_prefix(example)
        .expect("the lines of the example");
    let expected = "
kind  units  done  slices served  least room before a deadline
fold      1     0              3                             -
dock      2     1              2                             2
long      1     1              2                             4

project  cells served  budget  most in a frame  least in a frame
folding             3       3                3                 3
docking             4       5                4                 4

4 slices, 1 whole frame; 1 refused
";
    assert_eq!(rest, expected);
    let sample = |name: &str| format!("{}/../samples/{name}", env!("CARGO_MANIFEST_DIR"));
    let own = parchbeetle(
        &["run", &sample("plan-a.txt"), &sample("example-script.txt")],
        b"",
    );
    assert!(own.text().starts_with(example), "{}", own.text());
    // The script from the standard input, and the plan.
    let piped = parchbeetle(&["run", &plan, "-"], EXAMPLE.as_bytes());
    assert_eq!(piped.text(), ran.text());
    let piped = parchbeetle(&["run", "-", &script], &pack(&Plan::a()));
    assert_eq!(piped.status, Some(2), "names are not in plan bytes");
    assert!(
        piped
            .said
            .contains("script.txt:2: no kind is called `fold`"),
        "{}",
        piped.said
    );
}

#[test]
fn run_agrees_with_the_second_programs_player() {
    let folder = Folder::new("play");
    let mut generator = Generator::new(12);
    for _ in 0..12 {
        let plan = generator.admitted_plan();
        let bytes = pack(&plan);
        let file = folder.file("plan.bin", &bytes);
        let mut stream = bytes.clone();
        let mut script = String::new();
        for _ in 0..60 {
            if generator.one_in(2) {
                let (kind, length) = (generator.below(16), generator.below(6));
                stream.extend(release_bytes(kind, length));
                script += &format!("release {kind} {length}\n");
            } else {
                let count = 1 + generator.below(3);
                stream.extend(SLICE.repeat(count as usize));
                script += &format!("slice {count}\n");
            }
        }
        let mut played = Vec::new();
        second::play(&stream[..], &mut played);
        let ran = parchbeetle(&["run", &file, "-"], script.as_bytes());
        assert!(ran.output.starts_with(&played), "{script}\n{}", ran.text());
    }
}

#[test]
fn run_draws_a_chart() {
    let folder = Folder::new("gantt");
    let plan = folder.file("plan.txt", PLAN_A.replacen("budget 5", "budget 4", 1));
    let script = folder.file(
        "script.txt",
        "release fold 6\nrelease dock 2\nrelease dock 1\nslice 8\nrelease long 1\nslice 2\n",
    );
    let svg = folder.path("run.svg");
    let ran = parchbeetle(&["run", &plan, &script, "--gantt", "--svg", &svg], b"");
    assert_eq!(ran.status, Some(1), "a release is refused");
    let chart: Vec<&str> = lines(ran.text()).into_iter().take(7).collect();
    assert_eq!(
        chart,
        [
            "slice   0123456789",
            "card 0  aaa.aaa...",
            "card 1  bb.-...-c.",
            "a fold  R==-===d",
            "b dock  R=.d",
            "c long          R.",
            "",
        ]
    );
    assert!(ran.text().contains("refused before slice 0: kind 1, length 1: the kind's last release was less than its separation ago (14)\n"));
    let picture = folder.read("run.svg");
    well_formed(&picture);
    assert!(picture.contains("card 1, slice 3: free") && picture.contains("card 0, slice 3: idle"));
    assert!(picture.contains("kind 0 (fold): released before slice 0, 6 long, due before slice 8"));
}

#[test]
fn a_random_run_is_the_same_for_the_same_seed() {
    let random = |seed: &str| {
        parchbeetle(
            &["run", "-", "--random", seed, "--slices", "42"],
            PLAN_A.as_bytes(),
        )
    };
    let one = random("7");
    assert_eq!(
        (one.status, one.said.as_str()),
        (Some(0), ""),
        "nothing is refused"
    );
    assert_eq!(one.output, random("7").output);
    assert_ne!(one.output, random("8").output);
    assert!(one.text().contains("\nend 2\n"));
    let json = parchbeetle(
        &["run", "-", "--random", "7", "--slices", "42", "--json"],
        PLAN_A.as_bytes(),
    )
    .json();
    assert_eq!(json.at("rows").list().len(), 42);
    for project in json.at("projects").list() {
        assert!(project.at("most_in_frame").number() <= project.at("budget").number());
    }
}

#[test]
fn a_long_run_shows_how_far_it_is_on_a_terminal() {
    let folder = Folder::new("progress");
    let plan = folder.file("plan.txt", PLAN_A);
    // How long a run has to be depends on the machine. `script` of util-linux makes the terminal.
    for slices in [20_000, 200_000, 2_000_000] {
        let call = format!(
            "{} run {plan} --random 1 --slices {slices} > /dev/null",
            env!("CARGO_BIN_EXE_parchbeetle")
        );
        let mut terminal = std::process::Command::new("script");
        terminal.args(["-qec", &call, "/dev/null"]);
        let Ok(ran) = terminal.stdin(std::process::Stdio::null()).output() else {
            eprintln!("not run: there is no `script` to make a terminal with");
            return;
        };
        assert!(ran.status.success());
        if String::from_utf8_lossy(&ran.stdout).contains(&format!(" of {slices} slices, ")) {
            return;
        }
    }
    panic!("nothing was shown");
}

#[test]
fn run_refuses_and_says_why() {
    let folder = Folder::new("refused");
    let long = folder.file("long.txt", PLAN_A.replacen("length 6", "length 7", 1));
    let good = folder.file("plan.txt", PLAN_A);
    let script = folder.file("script.txt", EXAMPLE);
    let ran = parchbeetle(&["run", &long, &script], b"");
    assert_eq!((ran.status, ran.text()), (Some(1), "plan refused 8 at 0\n"));
    assert!(
        ran.said.starts_with(&format!(
            "{long}:5: not admitted: kind 0 (fold) is too long by 1"
        )),
        "{}",
        ran.said
    );

    let bad = folder.file("bad.txt", "release nobody 1\nslice 0\nrelease fold\nrelease fold one\nslice 1 2\ngo\nslice 99999999999\n");
    let ran = parchbeetle(&["run", &good, &bad], b"");
    assert_eq!((ran.status, ran.text()), (Some(2), ""));
    let at: Vec<String> = (1..=7).map(|line| format!("{bad}:{line}: ")).collect();
    for (line, at) in lines(&ran.said).iter().zip(&at) {
        assert!(line.starts_with(at), "{line}");
    }
    assert_eq!(lines(&ran.said).len(), 7);
    for arguments in [
        &["run", &good][..],
        &["run", &good, &script, "--random", "1"],
        &["run", &good, "--random", "x"],
        &["run", &good, "--slices", "3"],
        &["run", &good, &script, "--slices", "3"],
        &["run", "-", "-"],
        &[
            "run", &good, "--random", "1", "--slices", "9999999", "--gantt",
        ],
        &[
            "run", &good, "--random", "1", "--slices", "9999", "--html", "x",
        ],
        &["run", &good, "--random", "1", "--slices", "9999999999"],
    ] {
        let ran = parchbeetle(arguments, b"");
        assert_eq!((ran.status, ran.text()), (Some(2), ""), "{arguments:?}");
    }
}

// ---- build

#[test]
fn build_makes_a_plan() {
    let folder = Folder::new("build");
    let file = folder.path("plan.bin");
    let ran = parchbeetle(&["build", "2", "3:2", "6:4", "6:3", "--write", &file], b"");
    assert_eq!((ran.status, ran.said.as_str()), (Some(0), ""));
    assert!(ran
        .text()
        .starts_with("cards 2\nframe 3\nproject ceiling 1 budget 2  # project 0\n"));
    assert!(ran.text().ends_with("\n# admitted\n"));
    let (answer, plan) = second::build(2, &[(3, 2), (6, 4), (6, 3)]);
    assert!(answer.is_good());
    assert_eq!(std::fs::read(&file).unwrap(), pack(&plan));
    assert_eq!(parchbeetle(&["check", &file], b"").status, Some(0));
    let json = parchbeetle(&["build", "2", "3:2", "--json"], b"").json();
    assert_eq!(json.at("plan").at("frame").number(), 3);

    for (arguments, status, said) in [
        (&["build", "9", "3:2"][..], 1, "refused 17 at 0"),
        (&["build", "2"], 1, "refused 17 at 0"),
        (
            &[
                "build", "8", "2:1", "2:1", "2:1", "2:1", "2:1", "2:1", "2:1", "2:1", "2:1",
            ],
            1,
            "refused 18 at 0",
        ),
        (
            &["build", "2", "2:1", "3:4"],
            1,
            "kind 1, 3:4: a kind is not 1 <= length",
        ),
        (&["build", "2", "2:1", "99999999:1"], 1, "refused 6 at 1"),
        (&["build", "2", "65:1"], 1, "refused 19 at 0"),
        (&["build", "1", "2:2", "2:2"], 1, "refused 7 at 0"),
        (&["build", "two", "2:2"], 2, "`two` is no number of cards"),
        (&["build", "2", "2:2:2"], 2, "`2:2:2` is not T:C"),
        (&["build", "2", "2"], 2, "`2` is not T:C"),
        (&["build"], 2, "too few arguments"),
    ] {
        let ran = parchbeetle(arguments, b"");
        assert_eq!(
            (ran.status, ran.text()),
            (Some(status), ""),
            "{arguments:?}"
        );
        assert!(ran.said.contains(said), "{arguments:?}: {}", ran.said);
    }
}

// ---- rescue

#[test]
fn rescue_tells_each_change() {
    let folder = Folder::new("rescue");
    let good = pack(&Plan::a());
    let written = folder.path("out.bin");
    let ran = parchbeetle(&["rescue", "--write", &written], &good);
    assert_eq!((ran.status, ran.said.as_str()), (Some(0), ""));
    assert!(
        ran.text()
            .starts_with("standard input: 0 changes\n\ncards 2\n"),
        "{}",
        ran.text()
    );
    assert_eq!(std::fs::read(&written).unwrap(), good);

    // A spare bit of the header and of kind 2, the ceiling and the budget of project 0, kind 1's project and kind 2's deadline.
    let mut bytes = good.clone();
    bytes[2] |= 0b0101;
    bytes[3] = 0xF0;
    bytes[4] = 0x00;
    bytes[12] |= 0b1110_0000;
    bytes[18] = 0x10;
    bytes[19] = 0x7F;
    bytes[21] |= 1;
    let damaged = folder.file("damaged.bin", &bytes);
    let ran = parchbeetle(&["rescue", &damaged, "--write", &written], b"");
    assert_eq!(
        (ran.status, ran.said.as_str()),
        (Some(0), ""),
        "{}",
        ran.text()
    );
    let told: Vec<&str> = ran
        .text()
        .lines()
        .take_while(|line| !line.is_empty())
        .skip(1)
        .collect();
    assert_eq!(
        told,
        [
            "  the header's spare bits were 5 and are cleared",
            "  kind 2: its spare bit was 1 and is cleared",
            "  project 0: ceiling 15 lowered to 2",
            "  project 0: budget 0 raised to 1",
            "  kind 1 is dropped: its project is not there, or its length is 0 or above its deadline",
            "  kind 2: deadline 1016 lowered to 8, its separation",
        ]
    );
    let mut list = [0; 342];
    let (answer, plan, _) = second::rescue::rescue(&bytes, &mut list);
    assert!(answer.is_good());
    assert_eq!(std::fs::read(&written).unwrap(), pack(&plan));
    let json = parchbeetle(&["rescue", &damaged, "--json"], b"").json();
    let first: Vec<i64> = ["field", "place", "old", "new"]
        .map(|name| json.at("changes").nth(0).at(name).number())
        .to_vec();
    assert_eq!(
        (first, json.at("changes").list().len()),
        (vec![1, 0, 5, 0], 6)
    );
}

#[test]
fn what_cannot_be_rescued() {
    let folder = Folder::new("lost");
    let mut wide = Plan::a();
    wide.projects[0].budget = 4;
    let written = folder.path("out.bin");
    let ran = parchbeetle(&["rescue", "--write", &written], &pack(&wide));
    assert_eq!(ran.status, Some(1), "{}", ran.said);
    assert!(ran
        .text()
        .contains("\nproject ceiling 1 budget 4  # project 0\n"));
    assert!(
        ran.said
            .contains("the budgets sum above the cards times the frame (refused 7 at 0)"),
        "{}",
        ran.said
    );
    assert!(!std::path::Path::new(&written).exists());
    let json = parchbeetle(&["rescue", "--json"], &pack(&wide)).json();
    assert_eq!(
        (json.at("number").number(), json.at("hex")),
        (7, &Value::Null)
    );

    let mut none = pack(&Plan::a());
    for place in [7, 12, 17] {
        none[place] |= 0b1110_0000;
    }
    for (bytes, status, said) in [
        (none, 1, "no kind remains (refused 20 at 0)"),
        (
            vec![0x22, 0x18],
            1,
            "fewer bytes than a plan takes (refused 1 at 0)",
        ),
        (
            vec![0xFF; 30],
            1,
            "cards, projects, kinds or frame out of range (refused 2 at 0)",
        ),
        (
            PLAN_A.as_bytes().to_vec(),
            2,
            "this is a text and no plan bytes",
        ),
    ] {
        let ran = parchbeetle(&["rescue"], &bytes);
        assert_eq!((ran.status, ran.text()), (Some(status), ""));
        assert!(ran.said.contains(said), "{}", ran.said);
    }
}

/// Every element of a picture is closed, in order, and no bare mark stands in its text.
fn well_formed(picture: &str) {
    let mut open = Vec::new();
    for part in picture.split('<').skip(1) {
        let (tag, text) = part.split_once('>').expect("the end of a tag");
        assert!(!text.contains('>') && !tag.contains('<'));
        match tag.strip_prefix('/') {
            Some(name) => assert_eq!(open.pop(), Some(name)),
            None if tag.ends_with('/') => {}
            None => open.push(tag.split(' ').next().unwrap()),
        }
    }
    assert!(open.is_empty() && picture.starts_with("<svg ") && picture.ends_with("</svg>\n"));
}
