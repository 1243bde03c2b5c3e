//! docs/ANSWER.md: every command in it prints what stands below it.

use std::fs;
use std::path::Path;

use crate::support::Folder;

#[test]
fn the_answer_is_what_the_command_prints() {
    let docs = Path::new(env!("CARGO_MANIFEST_DIR")).join("../../docs");
    let answer = fs::read_to_string(docs.join("ANSWER.md")).unwrap();
    let folder = Folder::new();
    assert_eq!(folder.shell(&format!("cp -R '{}'/. .", docs.join("house").display())).status, 0);
    let mut commands = 0;
    for block in answer.split("```\n").skip(1).step_by(2) {
        for asked in block.split("$ ").skip(1) {
            let (line, expected) = asked.split_once('\n').unwrap();
            let run = folder.shell(&line.replacen("usm", "$USM", 1));
            assert_eq!((run.status, run.err.as_str()), (0, ""), "{line}");
            has_in_order(&run.out, expected);
            commands += 1;
        }
    }
    assert!(commands >= 6, "{commands}");
    let page = String::from_utf8(folder.read("south.html")).unwrap();
    assert!(page.contains("Bill of copies for 30 South"));
    // What it says of the house without the wrong line.
    assert_eq!(folder.shell("grep -v ABCDF holdings.csv > mended.csv").status, 0);
    let run = folder.usm(&["bill", "mended.csv", "--totals", "--csv"]);
    assert!(run.out.contains("\r\n30,2,17601,5866\r\n"), "{}", run.out);
}

/// Pieces between lines of dots stand in the output, one after the other; where there is no such line it is all of it.
fn has_in_order(output: &str, expected: &str) {
    let pieces: Vec<&str> = expected.split("...\n").collect();
    if let [whole] = pieces[..] {
        return assert_eq!(output, whole);
    }
    let mut rest = output;
    for piece in pieces {
        let at = rest.find(piece).unwrap_or_else(|| panic!("{piece}\nis not in\n{output}"));
        rest = &rest[at + piece.len()..];
    }
}
