//! The page: it loads without an error, its numbers are the CSV's, and no key of another tenant is in it.

use std::collections::BTreeMap;
use std::os::unix::fs::FileTypeExt;
use std::process::Command;

use crate::bill::{packed, sounding, stream};
use crate::support::Folder;

const KEYS: [&str; 7] = [
    "00123446789ABCDE",
    "7F123456789ABCDE",
    "00123446789ABCDF",
    "1A1B1C1D2A2B2C2D",
    "3A3B3C3D4A4B4C4D",
    "5A5B5C5D6A6B6C6D",
    "0ABC3446789A11DE",
];

/// Three studios; one of them typed its key twice. One film is in three containers, one is refused.
fn house() -> Folder {
    let folder = Folder::new();
    folder.write("cut.usm", &packed(&stream(1, 4000), &stream(2, 500), 0x0012_3446_789A_BCDE));
    for (name, key) in [("north.usm", KEYS[3]), ("east.usm", KEYS[4]), ("south.usm", KEYS[5])] {
        folder.write(name, &packed(&stream(3, 3001), &stream(4, 600), u64::from_str_radix(key, 16).unwrap()));
    }
    folder.write("short.usm", &sounding(0x142));
    folder.write("broken.usm", b"CRID");
    let [a, b, c, north, east, south, short] = KEYS;
    let lines = [
        format!("10,North,{a},cut.usm,<script>alert(1)</script>"),
        format!("20,East & Co,{b},cut.usm,"),
        format!("30,South,{b},cut.usm,"),
        format!("30,South,{c},cut.usm,"),
        format!("10,North,{north},north.usm,\"Title \"\"loop\"\"\""),
        format!("20,East & Co,{east},east.usm,"),
        format!("30,South,{south},south.usm,"),
        format!("20,East & Co,{a},short.usm,"),
        format!("30,South,{short},short.usm,"),
        "10,North,,short.usm,".to_string(),
        format!("10,North,{a},broken.usm,"),
    ];
    folder.write("house.csv", format!("tenant,name,key,film,title\n{}\n", lines.join("\n")).as_bytes());
    folder
}

fn page(folder: &Folder, words: &[&str]) -> String {
    let run = folder.usm(&[&["bill", "house.csv", "--html", "page.html"], words].concat());
    assert_eq!((run.status, run.out.as_str(), run.err.as_str()), (1, "", ""));
    String::from_utf8(folder.read("page.html")).unwrap()
}

/// The rows of all tables of a class: the text of their cells.
fn rows(page: &str, class: &str) -> Vec<Vec<String>> {
    let start = format!("<table class=\"{class}\">");
    let tables = page.split(&start).skip(1).map(|rest| rest.split("</table>").next().unwrap());
    let bodies = tables.map(|table| table.split("<tbody>").nth(1).unwrap());
    let rows = bodies.flat_map(|body| body.split("</tr>").filter(|row| row.contains("<td")).collect::<Vec<_>>());
    rows.map(|row| row.split("</td>").map(text).collect()).collect()
}

/// A part of a page without its style and its marks.
fn text(part: &str) -> String {
    let body = part.split("</style>").last().unwrap();
    let pieces = body.split('<').map(|piece| piece.split_once('>').map_or(piece, |(_, text)| text));
    pieces.collect::<String>().trim().to_string()
}

fn number(word: &str) -> u64 {
    word.split_whitespace().next().unwrap().replace(',', "").parse().unwrap()
}

/// The CSV's lines: tenant, share, and the digests.
fn lines(folder: &Folder) -> Vec<(u64, u64, String, String)> {
    let run = folder.usm(&["bill", "house.csv", "--csv"]);
    let line = |line: &str| {
        let fields: Vec<&str> = line.split(',').collect();
        (number(fields[0]), number(fields[4]), fields[5].to_string(), fields[6].to_string())
    };
    run.out.lines().skip(1).map(line).collect()
}

/// Shares and sums on a page are those of the CSV, and it has the CSV's digests.
fn holds_the_lines(page: &str, lines: &[(u64, u64, String, String)]) {
    let mut shares: Vec<(u64, u64)> =
        rows(page, "shares").iter().map(|row| (number(&row[0]), number(&row[2]))).collect();
    let mut expected: Vec<(u64, u64)> = lines.iter().map(|line| (line.0, line.1)).collect();
    shares.sort();
    expected.sort();
    assert_eq!(shares, expected);
    let mut sums: BTreeMap<u64, (u64, u64)> = BTreeMap::new();
    for (tenant, share, video, audio) in lines {
        let (copies, bytes) = sums.entry(*tenant).or_default();
        *copies += 1;
        *bytes += share;
        assert!(page.contains(video) && page.contains(audio));
    }
    let totals: BTreeMap<u64, (u64, u64)> =
        rows(page, "totals").iter().map(|row| (number(&row[0]), (number(&row[2]), number(&row[4])))).collect();
    assert_eq!(totals, sums);
}

#[test]
fn the_page_of_the_house() {
    let folder = house();
    let page = page(&folder, &[]);
    holds_the_lines(&page, &lines(&folder));
    assert_eq!(page.matches("<section class=\"copy\">").count(), 5);
    let shown = text(&page);
    for key in KEYS {
        assert!(!shown.to_uppercase().contains(key), "{key}");
    }
    for part in [
        "This bill is incomplete. 1 film could not be billed:",
        "broken.usm: refused 1 at 0: bytes run out (line 12, tenant 10)",
        "20 East &amp; Co",
        "&lt;script&gt;alert(1)&lt;/script&gt;",
        "Title &quot;loop&quot;",
        "Tenant 30 South holds the film under both: one key may be mistyped.",
        "Its keys differ only where this film shows nothing",
        "3 films, the same streams",
        "sha256sum FILE",
        concat!("by usm ", env!("CARGO_PKG_VERSION")),
    ] {
        assert!(shown.contains(part), "{part}: {shown}");
    }
    assert!(page.find("This bill is incomplete") < page.find("class=\"tiles\""));
    assert!(!page.contains("<script") && !page.contains("http://") && !page.contains("https://"));
}

#[test]
fn the_page_of_a_tenant() {
    let folder = house();
    let all = lines(&folder);
    for (tenant, own_keys, own_films) in [
        ("10", &[0, 3][..], &["cut.usm", "north.usm", "short.usm", "broken.usm"][..]),
        ("20", &[1, 4, 0], &["cut.usm", "east.usm", "short.usm"]),
        ("30", &[1, 2, 5, 6], &["cut.usm", "south.usm", "short.usm"]),
    ] {
        let run = folder.usm(&["bill", "house.csv", "--html", "page.html", "--tenant", tenant]);
        assert_eq!(run.status, 1);
        let page = String::from_utf8(folder.read("page.html")).unwrap();
        let own: Vec<_> = all.iter().filter(|line| line.0.to_string() == tenant).cloned().collect();
        holds_the_lines(&page, &own);
        let shown = text(&page);
        for (at, key) in KEYS.iter().enumerate() {
            // The page has the keys under which the tenant holds a film, and no others.
            assert_eq!(shown.contains(key), own_keys.contains(&at), "{tenant} {key}");
        }
        for film in ["cut.usm", "north.usm", "east.usm", "south.usm", "short.usm", "broken.usm"] {
            assert_eq!(shown.contains(film), own_films.contains(&film), "{tenant} {film}");
        }
        for (number, name) in [("10", "North"), ("20", "East"), ("30", "South")] {
            assert_eq!(shown.contains(name), number == tenant, "{tenant} {name}");
        }
        assert_eq!(shown.contains("You hold the film under both"), tenant == "30");
        assert_eq!(shown.contains("incomplete"), tenant == "10");
        assert!(shown.contains("another tenant") || shown.contains("2 other tenants"));
    }
    let run = folder.usm(&["bill", "house.csv", "--html", "other.html", "--tenant", "11"]);
    run.expect(2, "", "usm: house.csv: no line is of tenant 11\n");
    assert!(!folder.path("other.html").exists());
    assert_eq!(folder.usm(&["bill", "house.csv", "--tenant", "10"]).status, 2);
}

#[test]
fn the_file_is_whole_or_as_it_was() {
    let folder = house();
    folder.write("page.html", b"before");
    folder.shell("ln -s page.html link.html; mkfifo pipe");
    page(&folder, &[]);
    let first = folder.read("page.html");
    folder.write("page.html", b"before");
    assert_eq!(folder.usm(&["bill", "house.csv", "--html", "link.html"]).status, 1);
    assert_eq!(folder.read("page.html"), first);
    assert!(folder.path("link.html").is_symlink());
    let run = folder.shell("cat pipe > piped & $USM bill house.csv --html pipe; wait");
    assert_eq!(run.err, "");
    assert_eq!(folder.read("piped"), first);
    assert!(std::fs::symlink_metadata(folder.path("pipe")).unwrap().file_type().is_fifo());
    let run = folder.usm(&["bill", "house.csv", "--html", "none/page.html"]);
    assert_eq!((run.status, run.out.as_str()), (2, ""));
    assert!(run.err.starts_with("usm: none/page.html: "), "{}", run.err);
    assert!(folder.names().iter().all(|name| !name.ends_with(".part")));
    // What the bill is made of is not replaced.
    for name in ["house.csv", "north.usm"] {
        let before = folder.read(name);
        let run = folder.usm(&["bill", "house.csv", "--html", name]);
        assert_eq!(run.status, 2);
        assert!(run.err.ends_with(": this bill is made of it\n"), "{}", run.err);
        assert_eq!(folder.read(name), before);
    }
    // With a form that is asked for, it goes to standard output.
    let run = folder.usm(&["bill", "house.csv", "--csv", "--html", "page.html"]);
    assert_eq!(run.out, folder.usm(&["bill", "house.csv", "--csv"]).out);
}

/// The page at several widths. It says by how much each can be scrolled sideways.
const FRAMES: &str = "<!doctype html><p id=\"found\"></p>
    <iframe src=\"page.html\" style=\"width:1100px\"></iframe><iframe src=\"page.html\" style=\"width:640px\"></iframe>
    <iframe src=\"page.html\" style=\"width:400px\"></iframe><iframe src=\"page.html\" style=\"width:340px\"></iframe>
    <script>onload = () => {
        const over = page => page.scrollWidth - page.clientWidth;
        const said = frame => frame.clientWidth + ':' + over(frame.contentDocument.documentElement);
        found.textContent = [...document.querySelectorAll('iframe')].map(said).join(' ');
    };</script>";

/// Headless Chromium loads the pages, at several widths and as PDF, and has nothing to say of them.
#[test]
fn a_browser_loads_it() {
    if Command::new("chromium").arg("--version").output().is_err() {
        println!("SKIPPED: no chromium: the page in a browser");
        return;
    }
    let folder = house();
    let file = page(&folder, &[]);
    folder.write("wrong.html", file.replace("<h1>", "<img src=\"other.png\"><script>none()</script><h1>").as_bytes());
    folder.write("frames.html", FRAMES.as_bytes());
    let browser = |page: &str, words: &str| {
        let line = format!(
            "chromium --headless --no-sandbox --disable-gpu --user-data-dir=\"$PWD/profile\" --enable-logging=stderr \
             --no-pdf-header-footer {words} \"file://$PWD/{page}\""
        );
        let run = folder.shell(&line);
        let complaints: Vec<String> =
            run.err.lines().filter(|line| line.contains("CONSOLE")).map(String::from).collect();
        (run.status, run.out, complaints)
    };
    let (status, dom, complaints) = browser("page.html", "--dump-dom");
    assert_eq!((status, complaints), (0, vec![]));
    holds_the_lines(&dom, &lines(&folder));
    for words in [
        "--window-size=1100,800 --screenshot=wide.png",
        "--window-size=400,800 --screenshot=narrow.png",
        "--print-to-pdf=page.pdf",
    ] {
        let (status, _, complaints) = browser("page.html", words);
        assert_eq!((status, complaints), (0, vec![]), "{words}");
    }
    assert!(folder.read("page.pdf").starts_with(b"%PDF") && folder.read("wide.png") != folder.read("narrow.png"));
    let (status, dom, complaints) = browser("frames.html", "--allow-file-access-from-files --dump-dom");
    assert_eq!((status, complaints), (0, vec![]));
    assert!(dom.contains("<p id=\"found\">1100:0 640:0 400:0 340:0</p>"), "it can be scrolled sideways: {dom}");
    // It would complain: the page allows nothing to be fetched or run.
    let (_, _, complaints) = browser("wrong.html", "--dump-dom");
    assert!(!complaints.is_empty());
}
