//! The page of `run --html`: it needs nothing else, and where a Chromium is installed it is opened there.
//! With UPDATE_PICTURE set, docs/page.png is taken anew, of the tutorial's page.

mod common;

use common::{parchbeetle, Folder};
use std::path::Path;
use std::process::{Command, Stdio};

/// The tutorial's plan and script.
const PLAN: &str = "cards 3\nframe 8\nproject docking ceiling 1 budget 8\nkind dock-a project docking separation 16 deadline 16 length 6\n\
    kind dock-b project docking separation 32 deadline 32 length 8\nproject imaging ceiling 1 budget 6\n\
    kind scan project imaging separation 24 deadline 16 length 10\nproject folding ceiling 2 budget 8\n\
    kind fold-a project folding separation 16 deadline 12 length 3\nkind fold-b project folding separation 48 deadline 40 length 9\n";
const SCRIPT: &str = "release dock-a 6\nrelease dock-b 8\nrelease scan 10\nrelease fold-a 3\nrelease fold-b 9\nslice 16\n\
    release dock-a 6\nrelease fold-a 2\nslice 16\n";

/// The page of the tutorial's run.
fn page(folder: &Folder) -> String {
    let plan = folder.file("joined.txt", PLAN);
    let script = folder.file("day.txt", SCRIPT);
    let html = folder.path("day.html");
    let ran = parchbeetle(&["run", &plan, &script, "--html", &html], b"");
    assert_eq!((ran.status, ran.said.as_str()), (Some(0), ""));
    folder.read("day.html")
}

#[test]
fn the_page_needs_nothing_else() {
    let folder = Folder::new("page");
    let page = page(&folder);
    assert!(page.starts_with("<!DOCTYPE html>\n") && page.ends_with("</html>\n"));
    let elsewhere = [
        "src=",
        "href=",
        "@import",
        "url(",
        "https:",
        "fetch(",
        "XMLHttpRequest",
    ];
    for word in elsewhere {
        assert!(!page.contains(word), "{word}");
    }
    // The one address is the name of SVG's own language.
    assert!(page
        .split("http:")
        .skip(1)
        .all(|rest| rest.starts_with("//www.w3.org/2000/svg\"")));
    for part in [
        "<h2>Verdict</h2>",
        "<h2>Slot table</h2>",
        "type=\"range\"",
        "max=\"31\"",
        "id=\"data\"",
    ] {
        assert!(page.contains(part), "{part}");
    }
}

#[test]
fn a_page_without_slices_and_one_with_odd_names() {
    let folder = Folder::new("odd");
    let plan = folder.file("<script>&\"x.txt", PLAN);
    let script = folder.file("none.txt", "# nothing\n");
    let html = folder.path("odd.html");
    let ran = parchbeetle(&["run", &plan, &script, "--html", &html, "--gantt"], b"");
    assert_eq!(ran.status, Some(0), "{}", ran.said);
    let page = folder.read("odd.html");
    assert!(page.contains("No slice was run.") && !page.contains("<script>&"));
    assert!(page.contains("&lt;script&gt;&amp;&quot;x.txt"));
}

/// A browser, if one is installed.
fn chromium() -> Option<Command> {
    let names = [
        "chromium",
        "chromium-browser",
        "google-chrome",
        "google-chrome-stable",
    ];
    let found = names.into_iter().find(|name| {
        let run = Command::new(name)
            .arg("--version")
            .stdout(Stdio::null())
            .stderr(Stdio::null())
            .status();
        run.is_ok_and(|status| status.success())
    });
    let mut command = Command::new(found?);
    // Where the tests run as root there is no sandbox; the page is our own.
    command.args([
        "--headless",
        "--no-sandbox",
        "--disable-gpu",
        "--hide-scrollbars",
    ]);
    Some(command)
}

#[test]
fn the_slider_shows_a_slice_in_chromium() {
    let folder = Folder::new("chromium");
    page(&folder);
    let url = |slice: u64| format!("file://{}#slice={slice}", folder.path("day.html"));
    let own = format!("--user-data-dir={}", folder.path("profile"));
    let Some(mut browser) = chromium() else {
        eprintln!("not run: no Chromium is installed");
        return;
    };
    let ran = browser
        .args([&own, "--dump-dom", &url(7)])
        .output()
        .unwrap();
    assert!(
        ran.status.success(),
        "{}",
        String::from_utf8_lossy(&ran.stderr)
    );
    let dom = String::from_utf8(ran.stdout).unwrap();
    let shown = [
        "<strong id=\"slice\">slice 7 (slice 7 of the frame)</strong>",
        "<li>card 0: b kind 1 (dock-b)</li><li>card 1: e kind 4 (fold-b)</li><li>card 2: free</li>",
        "id=\"mark\" style=\"left: 242px; width: 16px;\"",
    ];
    for part in shown {
        assert!(dom.contains(part), "{part}\n{dom}");
    }

    if std::env::var_os("UPDATE_PICTURE").is_some() {
        let picture = Path::new(env!("CARGO_MANIFEST_DIR")).join("../docs/page.png");
        let picture = format!("--screenshot={}", picture.display());
        let mut browser = chromium().unwrap();
        let ran = browser
            .args([&own, "--window-size=1000,1460", &picture, &url(7)])
            .output()
            .unwrap();
        assert!(ran.status.success());
    }
}

#[test]
fn the_picture_stands_in_docs() {
    let picture =
        std::fs::read(Path::new(env!("CARGO_MANIFEST_DIR")).join("../docs/page.png")).unwrap();
    assert!(picture.starts_with(b"\x89PNG\r\n"));
}
