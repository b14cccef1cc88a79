//! The header, the bindings and the proved code say the same: functions, parameters, fields, images,
//! sizes and numbers. What they do is held to the library here and in `include/test.c`.

use bindings::*;
use std::collections::BTreeSet;
use std::fs::{read_dir, read_to_string};
use std::path::{Path, PathBuf};

/// The texts that have to agree.
#[derive(Clone)]
struct Texts {
    /// `include/parchbeetle.h`.
    header: String,
    /// The bindings: their declarations, constants, numbers and records.
    bindings: String,
    /// The bridge to the library: its calls, and those of the bindings.
    bridge: String,
    bridged: String,
    /// The code of the proved crates that exports functions.
    exported: String,
    /// All code of the proved crates.
    code: String,
    /// The images as the proofs have them.
    images: String,
    /// The version of the packages.
    version: String,
}

/// The files of a folder and of those in it; none where there is no folder.
fn files_below(folder: &Path) -> Vec<PathBuf> {
    let mut files = Vec::new();
    for entry in read_dir(folder).into_iter().flatten() {
        let path = entry.unwrap().path();
        match path.is_dir() {
            true => files.extend(files_below(&path)),
            false => files.push(path),
        }
    }
    files
}

fn texts() -> Texts {
    let root = Path::new(env!("CARGO_MANIFEST_DIR")).join("..");
    let text = |path: &str| read_to_string(root.join(path)).expect(path);
    let (mut code, mut exported) = (String::new(), String::new());
    for folder in read_dir(root.join("crates")).unwrap() {
        for file in files_below(&folder.unwrap().path().join("src")) {
            let text = read_to_string(file).unwrap();
            if text.contains("#[unsafe(no_mangle)]") {
                exported += &text;
            }
            code += &text;
        }
    }
    Texts {
        header: text("include/parchbeetle.h"),
        bindings: ["lib", "calls", "linked", "answer", "record"]
            .map(|name| text(&format!("bindings/src/{name}.rs")))
            .concat(),
        bridge: text("bindings/bridge.c"),
        bridged: text("bindings/src/bridged.rs"),
        exported,
        code,
        images: text("crates/images/specs/Image.antt"),
        version: env!("CARGO_PKG_VERSION").to_string(),
    }
}

/// What a function is given: bytes to read, a buffer to write, or a number.
#[derive(Clone, Debug, PartialEq)]
enum Given {
    Bytes(String),
    Buffer(String),
    Number(String),
}

/// A function's name and what it is given, in order.
type Function = (String, Vec<Given>);

/// Each `before` NAME `(` PARAMETERS `after` of a text.
fn signatures(text: &str, before: &str, after: &str) -> Vec<(String, Vec<String>)> {
    let mut found = Vec::new();
    for part in text.split(before).skip(1) {
        let Some((name, rest)) = part.split_once('(') else {
            continue;
        };
        let Some((parameters, _)) = rest.split_once(')') else {
            continue;
        };
        let is_name = name
            .bytes()
            .all(|byte| byte.is_ascii_lowercase() || byte == b'_');
        if is_name && rest[parameters.len() + 1..].trim_start().starts_with(after) {
            let parameters = parameters
                .split(',')
                .map(|one| one.split_whitespace().collect::<Vec<_>>().join(" "))
                .filter(|one| !one.is_empty())
                .collect();
            found.push((name.to_string(), parameters));
        }
    }
    found
}

/// Parameters as `(type, name)` in which a pointer is followed by its length.
fn paired(
    function: (String, Vec<(String, String)>),
    [bytes, buffer, length, number]: [&str; 4],
) -> Function {
    let (name, parameters) = function;
    let mut given = Vec::new();
    let mut rest = parameters.into_iter();
    while let Some((kind, own)) = rest.next() {
        if kind == number {
            given.push(Given::Number(own));
            continue;
        }
        assert!(kind == bytes || kind == buffer, "{name}: {kind} {own}");
        let after = rest.next();
        let expected = (length.to_string(), format!("{own}_len"));
        assert_eq!(after, Some(expected), "{name}: the length of {own}");
        given.push(match kind == bytes {
            true => Given::Bytes(own),
            false => Given::Buffer(own),
        });
    }
    (name, given)
}

/// The functions that the header declares.
fn declared(header: &str) -> Vec<Function> {
    let split = |parameter: String| {
        let at = parameter.rfind([' ', '*']).map_or(0, |at| at + 1);
        let (kind, name) = parameter.split_at(at);
        (kind.trim().to_string(), name.to_string())
    };
    signatures(header, "\nuint64_t parchbeetle_", ";")
        .into_iter()
        .map(|(name, parameters)| (name, parameters.into_iter().map(split).collect()))
        .map(|one| paired(one, ["const uint8_t *", "uint8_t *", "size_t", "uint64_t"]))
        .collect()
}

fn named(parameter: String) -> (String, String) {
    let (name, kind) = parameter.split_once(": ").unwrap_or(("", &parameter));
    (kind.to_string(), name.to_string())
}

/// The functions that the bindings declare as foreign.
fn foreign(bindings: &str) -> Vec<Function> {
    signatures(bindings, "    fn parchbeetle_", "-> u64;")
        .into_iter()
        .map(|(name, parameters)| (name, parameters.into_iter().map(named).collect()))
        .map(|one| paired(one, ["*const u8", "*mut u8", "usize", "u64"]))
        .collect()
}

/// Functions on slices.
fn on_slices(text: &str, before: &str, after: &str) -> Vec<Function> {
    let given = |parameter: String| match named(parameter) {
        (kind, name) if kind == "&[u8]" => Given::Bytes(name),
        (kind, name) if kind == "&mut [u8]" => Given::Buffer(name),
        (_, name) => Given::Number(name),
    };
    signatures(text, before, after)
        .into_iter()
        .map(|(name, parameters)| (name, parameters.into_iter().map(given).collect()))
        .collect()
}

/// The functions of the bridge with their numbers.
fn numbered(bridge: &str) -> Vec<(u64, String)> {
    let one = |part: &str| {
        let (number, rest) = part.split_once(':')?;
        let call = rest.trim_start().strip_prefix("return parchbeetle_")?;
        Some((number.parse().ok()?, call.split_once('(')?.0.to_string()))
    };
    bridge.split("case ").skip(1).filter_map(one).collect()
}

/// The functions that the bindings call by numbers.
fn by_number(bridged: &str) -> Vec<(u64, String)> {
    let one = |part: &str| {
        let (name, rest) = part.split_once('(')?;
        let (_, body) = rest.split_once("{\n    ")?;
        Some((leading(body.split_once('(')?.1)?, name.to_string()))
    };
    bridged.split("\npub fn ").skip(1).filter_map(one).collect()
}

/// The fields of a record: names and types, in order.
fn fields(text: &str, record: &str) -> Vec<(String, String)> {
    let Some((_, rest)) = text.split_once(&format!("pub struct {record} {{")) else {
        return Vec::new();
    };
    rest.lines()
        .take_while(|line| line.trim() != "}")
        .filter_map(|line| line.trim().strip_prefix("pub "))
        .filter_map(|line| line.trim_end_matches(',').split_once(": "))
        // In an image a truth takes a byte.
        .map(|(name, kind)| (name.to_string(), kind.replace("bool", "u8")))
        .map(|(name, kind)| (name, with_number(text, kind)))
        .collect()
}

/// `[Kind; 16]` for `[Kind; Plan::KINDS]`.
fn with_number(text: &str, kind: String) -> String {
    let Some((before, constant)) = kind.split_once("; ") else {
        return kind;
    };
    let Some((_, name)) = constant.trim_end_matches(']').split_once("::") else {
        return kind;
    };
    let found = text.split_once(&format!("pub const {name}: "));
    let value = found.and_then(|(_, rest)| leading(rest.split_once(" = ")?.1));
    value.map_or(kind.clone(), |value| format!("{before}; {value}]"))
}

/// The fields of one of the header's lists, and the places behind it in the structure that it makes.
fn listed(header: &str, record: &str) -> Vec<(String, String)> {
    let upper = record.to_uppercase();
    let lower = record.to_lowercase();
    let mut found = Vec::new();
    let list = header.split_once(&format!("#define PARCHBEETLE_{upper}_FIELDS(field)"));
    let list = list.map_or("", |(_, rest)| {
        rest.split_once("\n\n").unwrap_or((rest, "")).0
    });
    for field in list.split("field(").skip(1) {
        let Some((name, bytes)) = field
            .split_once(')')
            .and_then(|(one, _)| one.split_once(", "))
        else {
            continue;
        };
        let bits = bytes.parse().map_or(0, |bytes: u32| 8 * bytes);
        found.push((name.to_string(), format!("u{bits}")));
    }
    let made = header.split_once(&format!("struct parchbeetle_{lower} {{"));
    let made = made.map_or("", |(_, rest)| {
        rest.split_once("};").unwrap_or((rest, "")).0
    });
    let mut before = Vec::new();
    let mut own = std::mem::take(&mut found);
    for line in made.lines() {
        let line = line.trim();
        if line.starts_with("PARCHBEETLE_") {
            before.append(&mut own);
        } else if let Some(member) = line.strip_prefix("struct parchbeetle_") {
            let Some((kind, name)) = member.trim_end_matches(';').split_once(' ') else {
                continue;
            };
            let kind = kind[..1].to_uppercase() + &kind[1..];
            // A place with one field alone is that number.
            let kind = match &listed(header, &kind)[..] {
                [(_, number)] => number.clone(),
                _ => kind,
            };
            before.push(match name.trim_end_matches(']').split_once('[') {
                Some((name, places)) => (name.to_string(), format!("[{kind}; {places}]")),
                None => (name.to_string(), kind),
            });
        }
    }
    before
}

/// An image as rows of places: how many, and the bits of the fields of each.
type Rows = Vec<(u64, Vec<u64>)>;

/// The rows of a record's image, by the header's lists.
fn rows(header: &str, record: &str) -> Rows {
    let mut found = Rows::new();
    let mut alone = Vec::new();
    for (_, kind) in listed(header, record) {
        if let Some(bits) = kind.strip_prefix('u') {
            alone.extend(leading(bits));
            continue;
        }
        if !alone.is_empty() {
            found.push((1, std::mem::take(&mut alone)));
        }
        match kind.trim_matches(['[', ']']).split_once("; ") {
            Some((kind, places)) => {
                let fields = match kind.strip_prefix('u').and_then(leading) {
                    Some(bits) => vec![bits],
                    None => rows(header, kind)
                        .into_iter()
                        .flat_map(|(_, bits)| bits)
                        .collect(),
                };
                found.push((places.parse().unwrap_or(0), fields));
            }
            None => found.extend(rows(header, &kind)),
        }
    }
    if !alone.is_empty() {
        found.push((1, alone));
    }
    found
}

/// The rows that the proofs speak of, in the line of this name and those that it names.
fn proved_rows(images: &str, name: &str) -> Rows {
    let line = |name: &str| {
        let found = images.split_once(&format!("\n{name} = "));
        found.map_or("", |(_, rest)| rest.lines().next().unwrap_or(""))
    };
    let mut found = Rows::new();
    for part in line(name).split(['∷', '+']) {
        match part
            .trim()
            .trim_start_matches('(')
            .split(' ')
            .collect::<Vec<_>>()[..]
        {
            ["row", places, widths] => {
                let widths = line(widths)
                    .split('∷')
                    .filter_map(|bits| leading(bits.trim()));
                found.push((places.parse().unwrap_or(0), widths.collect()));
            }
            [other] if other.ends_with("_rows") => found.extend(proved_rows(images, other)),
            _ => {}
        }
    }
    found
}

/// The number that follows, as far as it goes.
fn leading(text: &str) -> Option<u64> {
    let digits = text.bytes().take_while(u8::is_ascii_digit).count();
    text[..digits].parse().ok()
}

/// The numbers that the proved code refuses with.
fn refused_with(code: &str) -> BTreeSet<u64> {
    let mut numbers = BTreeSet::new();
    for made in [
        "Bare(",
        "ByProject(",
        "ByKind(",
        "bare(",
        "at_project(",
        "at_kind(",
    ] {
        numbers.extend(code.split(made).skip(1).filter_map(leading));
    }
    if code.contains("not_admitted(") {
        numbers.insert(8);
    }
    numbers
}

/// A list of numbers with their words.
fn worded(text: &str, before: &str) -> Vec<(u64, String)> {
    let one = |part: &str| {
        let (number, rest) = part.split_once(',')?;
        let words = rest.trim_start().strip_prefix('"')?;
        Some((
            number.trim().parse().ok()?,
            words.split_once('"')?.0.to_string(),
        ))
    };
    text.split(before).skip(1).filter_map(one).collect()
}

/// The numbers that the comments of the header's functions speak of, what stands in brackets aside.
fn spoken_of(header: &str) -> BTreeSet<u64> {
    let mut numbers = BTreeSet::new();
    for comment in header.split("Refusals").skip(1) {
        let comment = comment.split_once("*/").unwrap_or((comment, "")).0;
        for part in comment.split('(') {
            let outside = part.split_once(')').map_or(part, |(_, outside)| outside);
            numbers.extend(
                outside
                    .split(|c: char| !c.is_ascii_digit())
                    .filter_map(leading),
            );
        }
    }
    numbers
}

const SIZES: [&str; 9] = [
    "PLAN_IMAGE",
    "STATE_IMAGE",
    "VERDICT_BYTES",
    "FIGURES_BYTES",
    "CHANGE_BYTES",
    "MOST_PLAN_BYTES",
    "MOST_TABLE_BYTES",
    "MOST_LIST_BYTES",
    "MOST_ROW_BYTES",
];

/// Where the texts do not agree.
fn differences(texts: &Texts) -> Vec<String> {
    let Texts {
        header,
        bindings,
        bridge,
        bridged,
        exported,
        code,
        images,
        version,
    } = texts;
    let mut found = Vec::new();
    let mut same = |what: &str, sides: &[(&str, String)]| {
        let (_, first) = &sides[0];
        if first == "[]" || sides.iter().any(|(_, side)| side != first) {
            found.push(format!("{what}: {sides:#?}"));
        }
    };

    same(
        "functions",
        &[
            ("header", format!("{:?}", declared(header))),
            (
                "declared in the bindings",
                format!("{:?}", foreign(bindings)),
            ),
            (
                "bindings",
                format!("{:?}", on_slices(bindings, "\npub fn ", "-> Answer {")),
            ),
        ],
    );
    // These may stand in more than one file.
    let sorted = |mut functions: Vec<Function>| {
        functions.sort_by(|(one, _), (other, _)| one.cmp(other));
        format!("{functions:?}")
    };
    let marked = "#[unsafe(no_mangle)]\npub extern \"C\" fn parchbeetle_";
    same(
        "exported functions",
        &[
            ("header", sorted(declared(header))),
            ("exported", sorted(on_slices(exported, marked, "-> u64"))),
        ],
    );
    let exports = exported.matches("extern \"C\"").count();
    let declared = declared(header).len();
    same(
        "how many functions",
        &[
            ("header", declared.to_string()),
            ("exported", exports.to_string()),
        ],
    );

    let functions: Vec<_> = on_slices(bindings, "\npub fn ", "-> Answer {");
    for (file, text) in [("linked", bindings), ("bridged", bridged)] {
        same(
            file,
            &[
                ("bindings", format!("{functions:?}")),
                (
                    file,
                    format!("{:?}", on_slices(text, "\npub fn ", "-> u64 {")),
                ),
            ],
        );
    }
    let names = functions.into_iter().map(|(name, _)| name);
    let expected: Vec<_> = (0u64..).zip(names).collect();
    same(
        "the functions by number",
        &[
            ("header", format!("{expected:?}")),
            ("bridge", format!("{:?}", numbered(bridge))),
            ("bridged", format!("{:?}", by_number(bridged))),
        ],
    );

    for record in ["Plan", "Project", "Kind", "State", "Unit"] {
        let mut proved = fields(code, record);
        let own = fields(bindings, record);
        if record == "Unit" {
            // In memory its fields stand in another order, so that it takes six bytes.
            proved.sort_by_key(|field| own.iter().position(|one| one == field));
        }
        same(
            record,
            &[
                ("bindings", format!("{own:?}")),
                ("header", format!("{:?}", listed(header, record))),
                ("proved", format!("{proved:?}")),
            ],
        );
    }

    same(
        "Change",
        &[
            ("bindings", format!("{:?}", fields(bindings, "Change"))),
            ("header", format!("{:?}", listed(header, "Change"))),
        ],
    );

    for (image, name) in [("Plan", "plan_rows"), ("State", "state_rows")] {
        same(
            name,
            &[
                ("header", format!("{:?}", rows(header, image))),
                ("proved", format!("{:?}", proved_rows(images, name))),
            ],
        );
    }

    for size in SIZES {
        let own = bindings.split_once(&format!("pub const {size}: usize = "));
        let other = header.split_once(&format!("#define PARCHBEETLE_{size} "));
        same(
            size,
            &[
                (
                    "bindings",
                    format!("{:?}", own.and_then(|(_, rest)| leading(rest))),
                ),
                (
                    "header",
                    format!("{:?}", other.and_then(|(_, rest)| leading(rest))),
                ),
            ],
        );
    }

    let numbers = worded(header, "number(");
    same(
        "the numbers in words",
        &[
            ("header", format!("{numbers:?}")),
            ("bindings", format!("{:?}", worded(bindings, "("))),
        ],
    );
    let numbers: BTreeSet<u64> = numbers.into_iter().map(|(number, _)| number).collect();
    let refusals: BTreeSet<u64> = numbers
        .iter()
        .copied()
        .filter(|&number| number > 0)
        .collect();
    same(
        "the numbers of refusals",
        &[
            ("header", format!("{refusals:?}")),
            ("proved", format!("{:?}", refused_with(code))),
            (
                "said of the header's functions",
                format!("{:?}", spoken_of(header)),
            ),
        ],
    );

    let own = header.split_once("#define PARCHBEETLE_VERSION \"");
    let own = own.and_then(|(_, rest)| rest.split_once('"'));
    let part = |name: &str| {
        let found = header.split_once(&format!("#define PARCHBEETLE_VERSION_{name} "));
        found
            .and_then(|(_, rest)| leading(rest))
            .unwrap_or(u64::MAX)
    };
    let [major, minor, patch] = ["MAJOR", "MINOR", "PATCH"].map(part);
    same(
        "the version",
        &[
            ("header", own.map_or("none", |(own, _)| own).to_string()),
            ("header, in parts", format!("{major}.{minor}.{patch}")),
            ("packages", version.clone()),
        ],
    );
    found
}

#[test]
fn the_header_the_bindings_and_the_exported_functions_agree() {
    let texts = texts();
    let found = differences(&texts);
    assert!(found.is_empty(), "{}", found.join("\n"));
    assert_eq!(declared(&texts.header).len(), 13);
}

#[test]
fn one_thing_changed_on_one_side_is_found() {
    let texts = texts();
    let header: fn(&mut Texts) -> &mut String = |texts| &mut texts.header;
    let bindings: fn(&mut Texts) -> &mut String = |texts| &mut texts.bindings;
    let bridge: fn(&mut Texts) -> &mut String = |texts| &mut texts.bridge;
    let bridged: fn(&mut Texts) -> &mut String = |texts| &mut texts.bridged;
    let exported: fn(&mut Texts) -> &mut String = |texts| &mut texts.exported;
    let code: fn(&mut Texts) -> &mut String = |texts| &mut texts.code;
    let images: fn(&mut Texts) -> &mut String = |texts| &mut texts.images;
    let version: fn(&mut Texts) -> &mut String = |texts| &mut texts.version;
    for (side, from, to) in [
        // A name.
        (header, "parchbeetle_fresh(const", "parchbeetle_start(const"),
        (bindings, "fn parchbeetle_fresh(", "fn parchbeetle_start("),
        (bindings, "pub fn fresh(", "pub fn start("),
        (exported, "fn parchbeetle_fresh(", "fn parchbeetle_start("),
        // A parameter's name, order, direction and type; a length that is not there.
        (header, "uint64_t kind, uint64_t e)", "uint64_t kind, uint64_t length)"),
        (header, "uint64_t kind, uint64_t e)", "uint64_t e, uint64_t kind)"),
        (bindings, "kind: u64, e: u64) -> u64;", "e: u64, kind: u64) -> u64;"),
        (bindings, "kind: u64, e: u64) -> Answer {", "e: u64, kind: u64) -> Answer {"),
        (exported, "kind: u64, e: u64", "e: u64, kind: u64"),
        (header, "uint64_t project)", "uint8_t project)"),
        (exported, "plan: &[u8], project: u64", "plan: &[u8], place: u64"),
        (header, "uint64_t cards, const", "uint64_t m, const"),
        (bindings, "list: *const u8", "list: *mut u8"),
        (exported, "cards: u64, list: &[u8]", "cards: u64, kinds: &[u8]"),
        (header, "uint8_t *list, size_t list_len);", "const uint8_t *list, size_t list_len);"),
        (bindings, "plan: &mut [u8], list: &mut [u8]) -> Answer", "list: &mut [u8], plan: &mut [u8]) -> Answer"),
        (exported, "plan: &mut [u8], list: &mut [u8]", "list: &mut [u8], plan: &mut [u8]"),
        (header, "uint8_t *k,", "const uint8_t *k,"),
        (header, "show(const uint8_t *state", "show(uint8_t *state"),
        (bindings, "k: *mut u8", "k: *const u8"),
        (exported, "plan: &[u8], k: &mut [u8]", "plan: &[u8], k: &[u8]"),
        (exported, "plan: &[u8], k: &mut [u8]", "plan: &[u8], k: u64"),
        // One function more, and one that is not exported.
        (exported, "fn parchbeetle_check(plan", "fn parchbeetle_more() -> u64\n#[unsafe(no_mangle)]\npub extern \"C\" fn parchbeetle_check(plan"),
        (exported, "#[unsafe(no_mangle)]\npub extern \"C\" fn parchbeetle_advance", "pub fn parchbeetle_advance"),
        // A function that the bridge has under another number or not at all.
        (bridge, "return parchbeetle_verdict(", "return parchbeetle_fresh("),
        (bridged, "changing(11", "changing(9"),
        (bridge, "return parchbeetle_figures(", "return parchbeetle_verdict("),
        (bridge, "parchbeetle_rescue(a, a_len, b, b_len, c", "parchbeetle_fresh(a, a_len, b, b_len, c"),
        (bridged, "pub fn verdict(plan: &[u8], k", "pub fn verdict(k: &[u8], plan"),
        // A field's name, width and order, and how many places.
        (header, "field(budget, 2)", "field(budget, 4)"),
        (header, "field(budget, 2)", "field(cells, 2)"),
        (header, "project project[8]", "project project[9]"),
        (bindings, "pub budget: u16", "pub budget: u32"),
        (bindings, "pub unit: [Unit; 16]", "pub unit: [Unit; 8]"),
        (code, "pub deadline: u16", "pub due: u16"),
        (code, "pub slice: u8,\n", ""),
        (code, "pub left: u16", "pub left: u32"),
        (code, "[Unit; ", "[Other; "),
        (images, "unit_widths = 8 ∷ 16", "unit_widths = 16 ∷ 8"),
        (images, "row 8 project_widths", "row 9 project_widths"),
        (header, "sum sum[8]", "sum sum[9]"),
        (header, "field(left, 2)        /* slices left of all", "field(left, 4)        /* slices left of all"),
        (header, "field(old_value, 2)", "field(old_value, 1)"),
        (bindings, "pub old_value: u16", "pub before: u16"),
        (bindings, "pub sum: [u16; 8]", "pub sum: [u32; 8]"),
        (code, "pub sum: [u16; ", "pub sums: [u16; "),
        // A size.
        (header, "PLAN_IMAGE 140u", "PLAN_IMAGE 141u"),
        (header, "VERDICT_BYTES 32u", "VERDICT_BYTES 16u"),
        (header, "FIGURES_BYTES 44u", "FIGURES_BYTES 40u"),
        (bindings, "MOST_ROW_BYTES: usize = 8", "MOST_ROW_BYTES: usize = 16"),
        (header, "MOST_LIST_BYTES 342u", "MOST_LIST_BYTES 336u"),
        // A number: its words, one that is not given, one that is not listed or not said of any function.
        (header, "there is no such kind", "no such kind"),
        (bindings, "(13, ", "(28, "),
        (header, "number(16, \"a stored", "number(28, \"a stored"),
        (header, "number(12, ", "number(11, \"the clock is at its end\")\n    number(12, "),
        (bindings, "(12, \"there is", "(15, \"slices of an earlier unit are left\"),\n    (12, \"there is"),
        (code, "struct Plan {", "bare(15) struct Plan {"),
        (code, "struct Plan {", "bare(28) struct Plan {"),
        (header, "16, 12, 13, 14.", "16, 12, 13, 14, 15."),
        (header, "10, 16, 9 (row_len", "10, 16, 11, 9 (row_len"),
        (header, "2, 3, 27, 4", "2, 3, 4"),
        (header, "17 (cards", "28 (cards"),
        (header, "1 (the total), 20;", "1 (the total);"),
        (version, ".", ".1."),
        (header, "VERSION_MINOR ", "VERSION_MINOR 1"),
    ] {
        let mut edited = texts.clone();
        let text = side(&mut edited);
        assert!(text.contains(from), "{from} is nowhere");
        *text = text.replacen(from, to, 1);
        let found = std::panic::catch_unwind(|| differences(&edited));
        assert!(found.map_or(true, |found| !found.is_empty()), "{from} for {to} is not found");
    }
}

const PLAN_A: [u8; 22] = [
    0x22, 0x18, 0x40, 0x10, 0x0C, 0x20, 0x14, 0x00, 0x10, 0x01, 0x00, 0x0C, 0x20, 0x08, 0x00, 0x80,
    0x04, 0x20, 0x10, 0x01, 0x00, 0x04,
];

fn plan_a() -> Plan {
    let mut plan = Plan {
        cards: 2,
        projects: 2,
        kinds: 3,
        frame: 4,
        ..Plan::default()
    };
    plan.project[0] = Project {
        ceiling: 1,
        budget: 3,
    };
    plan.project[1] = Project {
        ceiling: 2,
        budget: 5,
    };
    for (place, (project, separation, length)) in
        [(0, 8, 6), (1, 4, 2), (1, 8, 2)].into_iter().enumerate()
    {
        plan.kind[place] = Kind {
            project,
            separation,
            deadline: separation,
            length,
        };
    }
    plan
}

#[test]
fn the_records_are_what_the_library_reads_and_writes() {
    let plan = plan_a();
    assert_eq!(Plan::read(&PLAN_A), Ok((plan, 22)));
    assert_eq!(Plan::of_image(&plan.image()), plan);
    assert_eq!(plan.check(), Ok(()));
    assert_eq!(plan.bytes(), Ok(PLAN_A.to_vec()));
    assert_eq!(plan.slots(), Ok(vec![1, 1, 1, 2, 2, 2, 2, 2]));
    let verdict = plan.verdict().unwrap();
    assert_eq!(verdict.k[..4], [1, 1, 1, 0]);
    assert_eq!(verdict.slice, [0; 16]);
    let mut due = plan;
    (due.kind[0].deadline, due.kind[0].length) = (3, 2);
    assert_eq!(due.verdict().unwrap().slice[..4], [1, 0, 0, 0]);
    due.kind[0].length = 3;
    let refused = due.verdict().unwrap_err();
    let parts = (refused.number, refused.place, refused.excess, refused.slice);
    assert_eq!(parts, (8, 0, 1, 1));
    assert_eq!(
        [0, 1].map(|project| plan.smallest_budget(project)),
        [Ok(3), Ok(4)]
    );
    assert_eq!(
        plan.smallest_budget(2).map_err(|answer| answer.number),
        Err(27)
    );

    let (figures, widths) = plan.figures(1).unwrap();
    assert_eq!((widths, figures.workload), (2, 2));
    assert_eq!(figures.supply[..3], [4, 5, 0]);
    let (figures, widths) = due.figures(0).unwrap();
    assert_eq!((widths, figures.workload), (1, 0));
    assert_eq!(
        (figures.supply[..2].to_vec(), figures.slice[0]),
        (vec![2, 0], 1)
    );
    assert_eq!(due.figures(3).map_err(|answer| answer.number), Err(12));

    let alone = Plan::build(2, &[(3, 2), (6, 4), (6, 3)]).unwrap();
    assert_eq!((alone.frame, alone.kinds), (3, 3));
    assert_eq!(
        alone.project.map(|project| project.budget)[..4],
        [2, 2, 2, 0]
    );
    assert_eq!(
        alone.verdict().map(|verdict| verdict.k[..4].to_vec()),
        Ok(vec![1, 1, 1, 0])
    );
    assert_eq!(Plan::build(9, &[]).map_err(|answer| answer.number), Err(17));

    assert_eq!(Plan::rescue(&PLAN_A), Ok((plan, Vec::new())));
    let mut damaged = PLAN_A;
    // The B of project 1 is the low four bits of byte 5 and the high six of byte 6.
    damaged[5] |= 0x0F;
    damaged[6] |= 0xFC;
    damaged[2] |= 1;
    let (rescued, changes) = Plan::rescue(&damaged).unwrap();
    let mut expected = plan;
    expected.project[1].budget = 8;
    assert_eq!(rescued, expected);
    assert_eq!(rescued.check().map_err(|answer| answer.number), Err(7));
    let change = |what, place, old_value, new_value| Change {
        what,
        place,
        old_value,
        new_value,
    };
    assert_eq!(changes, [change(1, 0, 1, 0), change(5, 1, 1023, 8)]);
    damaged[7..].fill(0);
    assert_eq!(
        Plan::rescue(&damaged).map_err(|answer| answer.number),
        Err(20)
    );
    assert_eq!(in_words(20), "no kind remains");

    let mut state = plan.fresh().unwrap();
    let fresh = State {
        plan,
        ..State::default()
    };
    assert_eq!(state, fresh);
    let mut row = [0; MOST_ROW_BYTES];
    state.advance().unwrap();
    state.release(2, 2).unwrap();
    state.show(&mut row).unwrap();
    assert_eq!((row, state.slice), ([0, 3, 0, 0, 0, 0, 0, 0], 1));
    state.advance().unwrap();
    let mut expected = State { slice: 2, ..fresh };
    expected.unit[2] = Unit {
        released: 1,
        gone: 1,
        left: 1,
    };
    expected.sum[1] = 1;
    assert_eq!(state, expected);
    assert_eq!(State::of_image(&state.image()), state);

    let refused = state.release(2, 1).unwrap_err();
    assert_eq!(
        refused,
        Answer {
            number: 14,
            ..Answer::default()
        }
    );
    assert_eq!(
        in_words(14),
        "the kind's last release was less than its separation ago"
    );
    assert_eq!(state, expected);

    state.sum[1] ^= 1;
    let flipped = state;
    for refused in [state.release(0, 1), state.show(&mut row), state.advance()] {
        assert_eq!(refused.map_err(|answer| answer.number), Err(16));
    }
    assert_eq!(state, flipped);
    assert_eq!(in_words(16), "a stored sum differs from what is left");
}

#[test]
fn the_sizes_are_the_librarys() {
    let plan = plan_a().image();
    let state = plan_a().fresh().unwrap().image();
    let copy = |size: usize| state[..size].to_vec();
    type Call<'a> = &'a dyn Fn(usize) -> Answer;
    // Every spare bit, every q and B, and every D: the longest list.
    let mut longest = [0xFF; MOST_PLAN_BYTES];
    longest[..3].copy_from_slice(&[0x18, 0x80, 0x1F]);
    for kind in longest[19..].chunks_exact_mut(5) {
        // T 2047, D 4095, C 2047.
        kind.copy_from_slice(&[0x0F, 0xFF, 0xFF, 0xEF, 0xFF]);
    }
    let calls: [(usize, Call); 17] = [
        (PLAN_IMAGE, &|size| {
            rescue(&longest, &mut vec![0; size], &mut [0; MOST_LIST_BYTES])
        }),
        (MOST_LIST_BYTES, &|size| {
            rescue(&longest, &mut [0; PLAN_IMAGE], &mut vec![0; size])
        }),
        (PLAN_IMAGE, &|size| check(&plan[..size])),
        (PLAN_IMAGE, &|size| read(&PLAN_A, &mut vec![0; size])),
        (PLAN_IMAGE, &|size| write(&plan[..size], &mut [0; 99])),
        (PLAN_IMAGE, &|size| slot_table(&plan[..size], &mut [0; 512])),
        (PLAN_IMAGE, &|size| verdict(&plan[..size], &mut [0; 32])),
        (VERDICT_BYTES, &|size| verdict(&plan, &mut vec![0; size])),
        (PLAN_IMAGE, &|size| figures(&plan[..size], 0, &mut [0; 44])),
        (FIGURES_BYTES, &|size| figures(&plan, 0, &mut vec![0; size])),
        (PLAN_IMAGE, &|size| smallest_budget(&plan[..size], 0)),
        (PLAN_IMAGE, &|size| {
            build(1, &[0, 2, 0, 1], &mut vec![0; size])
        }),
        (PLAN_IMAGE, &|size| {
            fresh(&plan[..size], &mut [0; STATE_IMAGE])
        }),
        (STATE_IMAGE, &|size| fresh(&plan, &mut vec![0; size])),
        (STATE_IMAGE, &|size| release(&mut copy(size), 0, 1)),
        (STATE_IMAGE, &|size| show(&state[..size], &mut [0; 2])),
        (STATE_IMAGE, &|size| advance(&mut copy(size))),
    ];
    for (size, call) in calls {
        assert_eq!(call(size).number, 0);
        assert_eq!(call(size - 1).number, 9);
    }

    // The most bytes are those of the largest plan.
    let mut largest = Plan {
        cards: 8,
        projects: 8,
        kinds: 16,
        frame: 64,
        project: [Project {
            ceiling: 8,
            budget: 64,
        }; 8],
        ..Plan::default()
    };
    largest.kind = [Kind {
        project: 0,
        separation: 4095,
        deadline: 4095,
        length: 1,
    }; 16];
    assert_eq!(largest.bytes().unwrap().len(), MOST_PLAN_BYTES);
    assert_eq!(largest.slots().unwrap().len(), MOST_TABLE_BYTES);
    let row = |size: usize| largest.fresh().unwrap().show(&mut vec![0; size]);
    assert_eq!(row(MOST_ROW_BYTES), Ok(()));
    assert!(row(MOST_ROW_BYTES - 1).is_err());
}

#[test]
fn an_answer_is_all_of_its_word() {
    for word in [
        0,
        14,
        0x0300_0005_0000_0108,
        0x0016_0000,
        u64::MAX,
        0x0123_4567_89AB_CDEF,
    ] {
        assert_eq!(Answer::of_word(word).word(), word);
    }
    let answer = Answer::of_word(0x3F00_0005_0016_0108);
    let parts = (answer.number, answer.place, answer.count, answer.excess);
    assert_eq!((parts, answer.slice), ((8, 1, 22, 5), 63));
}
