//! What films are read from: files, folders, standard input; and what can't be read.

use std::fs::{self, File, Permissions};
use std::os::unix::fs::PermissionsExt;

use crate::support::{Folder, USM, is_root};

#[test]
fn an_empty_file_and_what_is_no_film() {
    let folder = Folder::new();
    folder.write("nothing.usm", b"");
    folder.write("text.usm", b"this is no film");
    folder.usm(&["info", "nothing.usm", "text.usm"]).expect(
        1,
        "",
        "usm: nothing.usm: refused 1 at 0: bytes run out\nusm: text.usm: refused 2 at 0: no CRID at the start\n",
    );
}

#[test]
fn folders_are_gone_through_by_name() {
    let folder = Folder::with_films();
    fs::create_dir_all(folder.path("deep/er")).unwrap();
    folder.write("deep/er/b.USM", &films::f());
    folder.write("deep/a.usm", &films::f());
    folder.write("deep/a.txt", &films::f());
    std::os::unix::fs::symlink("..", folder.path("deep/loop")).unwrap();
    let run = folder.usm(&["list", "--csv", "deep", "f.usm"]);
    let films: Vec<&str> = run.out.lines().skip(1).step_by(2).map(|line| line.split(',').next().unwrap()).collect();
    assert_eq!((run.status, films), (0, vec!["deep/a.usm", "deep/er/b.USM", "f.usm"]));
    fs::create_dir(folder.path("none")).unwrap();
    folder.usm(&["info", "none"]).expect(2, "", "usm: none: no file in it ends in .usm\n");
}

#[test]
fn standard_input_by_pipe_and_by_file() {
    let folder = Folder::with_films();
    let by_pipe = folder.usm_with(&["list", "-"], &films::f());
    assert_eq!((by_pipe.status, by_pipe.out.lines().next()), (0, Some("-: 2 chunks")));
    assert_eq!(folder.shell("$USM list - < f.usm"), by_pipe);
    assert_eq!(folder.shell("(head -c 2 >/dev/null; $USM list -) < f.usm").status, 1, "from where it stands");
    let large = films::large(b"x", 40 << 20);
    let run = folder.usm_with(&["info", "-"], &large);
    assert!(run.out.contains(&format!("bytes   {}\n", large.len())), "{}", run.out);
}

#[test]
fn no_permission() {
    let folder = Folder::with_films();
    fs::set_permissions(folder.path("song.usm"), Permissions::from_mode(0o000)).unwrap();
    let run = if is_root() {
        let line = "setpriv --reuid=65534 --regid=65534 --clear-groups";
        folder
            .shell(&format!("cp $USM usm; chmod 755 usm; {line} ./usm info song.usm; status=$?; rm usm; exit $status"))
    } else {
        folder.usm(&["info", "song.usm"])
    };
    run.expect(2, "", "usm: song.usm: Permission denied\n");
}

#[test]
fn the_longest_film_and_one_byte_more() {
    let folder = Folder::new();
    File::create(folder.path("longest.usm")).unwrap().set_len(1 << 30).unwrap();
    File::create(folder.path("longer.usm")).unwrap().set_len((1 << 30) + 1).unwrap();
    let by_rules = "refused 2 at 0: no CRID at the start";
    let by_size = "refused 11 at 0: longer than 1,073,741,824 bytes";
    for command in ["info", "list", "extract"] {
        folder.usm(&[command, "longest.usm"]).expect(1, "", &format!("usm: longest.usm: {by_rules}\n"));
        // With memory for no film at all: it is not read.
        let run = folder.shell(&format!("ulimit -d 50000; $USM {command} longer.usm"));
        run.expect(1, "", &format!("usm: longer.usm: {by_size}\n"));
    }
    // A pipe has no length: what is too long is refused once that is known.
    let run = folder.shell("$USM info - < <(cat longer.usm)");
    run.expect(1, "", &format!("usm: -: {by_size}\n"));
}

/// A file of the kernel that claims 4096 bytes and has fewer, as one that shrinks between two looks.
pub const SHRINKING: &str = "/sys/kernel/mm/transparent_hugepage/enabled";

/// One that claims to be empty and is not, as one that grows.
pub const GROWING: &str = "/proc/self/status";

#[test]
fn a_film_that_shrinks_or_grows_while_it_is_read() {
    let folder = Folder::new();
    assert_eq!(fs::metadata(SHRINKING).unwrap().len(), 4096, "it claims more than it has");
    let left = fs::read(SHRINKING).unwrap().len();
    let run = folder.usm(&["info", SHRINKING]);
    run.expect(2, "", &format!("usm: {SHRINKING}: it shrank while it was read: {left} of 4096 bytes are left\n"));
    let run = folder.usm(&["info", GROWING]);
    run.expect(2, "", &format!("usm: {GROWING}: it grew while it was read: it had 0 bytes\n"));
}

#[test]
fn arguments() {
    let folder = Folder::with_films();
    for words in [&[][..], &["info"], &["nothing", "f.usm"], &["info", "--csv", "f.usm"], &["extract", "f.usm", "-o"]] {
        let run = folder.usm(words);
        assert_eq!((run.status, run.out.as_str()), (2, ""), "{words:?}");
        assert!(!run.err.is_empty());
    }
}

#[test]
fn names_of_files_in_any_bytes() {
    use std::os::unix::ffi::OsStrExt;
    let folder = Folder::new();
    let name = std::ffi::OsStr::from_bytes(b"\x1B[2J\xFF.usm");
    fs::write(folder.0.join(name), &films::f()[..428]).unwrap();
    let output =
        std::process::Command::new(USM).arg("info").arg("--json").arg(name).current_dir(&folder.0).output().unwrap();
    assert_eq!(
        String::from_utf8(output.stderr).unwrap(),
        "usm: \\u{1b}[2J\u{FFFD}.usm: refused 1 at 384: bytes run out\n"
    );
    let object = String::from_utf8(output.stdout).unwrap();
    assert!(
        object.starts_with("{\"kind\":\"failure\",\"schema\":1,\"file\":\"\\u001b[2J\u{FFFD}.usm\",\"file_hex\":\"1b5b324aff2e75736d\","),
        "{object}"
    );
}
