use crate::support::Folder;

const FIRST: &str = "0123456789ABCDEF";
/// Another in bits 40 to 47.
const SECOND: &str = "0x0123FF6789ABCDEF";

#[test]
fn what_a_clip_shows() {
    let folder = Folder::new();
    folder.usm(&["clip", "0x158"]).expect(
        0,
        "clip        344 (0x158) bytes\n\
         shows       --++---+++++++++  + this clip shows the digit, - it does not\n",
        "",
    );
    // A length of decimal digits is decimal.
    assert_eq!(folder.usm(&["clip", "344"]), folder.usm(&["clip", "0x158"]));
    for (length, shows) in [
        ("0", "----------------"),
        ("0x140", "----------------"),
        ("0x141", "--------------++"),
        ("0x143", "----------++--++"),
        ("0x145", "-------+--++--++"),
        ("0x147", "--++---+--++--++"),
        ("0x149", "--++---+--++++++"),
        ("0x14F", "--++---+++++++++"),
        ("0x159", "--++++-+++++++++"),
        ("0x10000000", "--++++-+++++++++"),
    ] {
        let run = folder.usm(&["clip", length]);
        assert!(run.out.contains(&format!("shows       {shows}  +")), "{length}: {}", run.out);
    }
}

#[test]
fn whether_a_clip_tells_two_keys_apart() {
    let folder = Folder::new();
    folder.usm(&["clip", "0x158", FIRST, SECOND]).expect(
        0,
        "clip        344 (0x158) bytes\n\
         shows       --++---+++++++++  + this clip shows the digit, - it does not\n\
         first key   0123456789ABCDEF\n\
         second key  0123FF6789ABCDEF\n\
         differs     ....^^..........  ^ the two keys have different digits here\n\
         \n\
         The clip can't tell the two keys apart: whatever it holds, it is the same under both.\n\
         A clip of 345 (0x159) bytes or more can.\n",
        "",
    );
    let run = folder.usm(&["clip", "0x159", FIRST, SECOND]);
    assert!(run.out.ends_with("\n\nThe clip tells the two keys apart: whatever it holds, it differs under them.\n"));
    let run = folder.usm(&["clip", "0x159", FIRST, "FF23456789ABCDEF"]);
    assert!(run.out.ends_with("No clip can: the keys give the same streams for every film.\n"), "{}", run.out);
}

/// As unmasking under both has it, for every length around the edges and every bit.
#[test]
fn clips_are_told_apart_as_they_are_unmasked() {
    let folder = Folder::new();
    let key = 0x0123_4567_89AB_CDEF_u64;
    let unmasked = |length: usize, key: u64| {
        let mut payload = vec![7; length];
        usm::unmask(usm::Stream::Audio, key, &mut payload);
        payload
    };
    for bit in [0, 7, 8, 16, 24, 32, 35, 36, 40, 47, 48, 56, 63] {
        let other = key ^ 1 << bit;
        let shortest = (0..0x200).find(|&length| unmasked(length, key) != unmasked(length, other));
        for length in [0x140, 0x141, 0x143, 0x145, 0x148, 0x14E, 0x158, 0x159] {
            let (first, second) = (format!("{key:X}"), format!("{other:X}"));
            let run = folder.usm(&["clip", "--json", &length.to_string(), &first, &second]);
            let is_same = unmasked(length, key) == unmasked(length, other);
            assert!(run.out.contains(&format!("\"same_streams\":{is_same},")), "{bit} {length:#x}: {}", run.out);
            let from = shortest.map_or("null".to_string(), |length| length.to_string());
            assert!(run.out.ends_with(&format!("\"shown_from\":{from}}}\n")), "{bit} {length:#x}: {}", run.out);
        }
    }
}

#[test]
fn words_that_are_wrong() {
    let folder = Folder::new();
    for words in
        [&["clip"][..], &["clip", "x"], &["clip", "-1"], &["clip", "0x159", FIRST], &["clip", "1", "2", "3", "4"]]
    {
        let run = folder.usm(words);
        assert!(run.status == 2 && run.out.is_empty() && !run.err.is_empty(), "{words:?}: {run:?}");
    }
    let why = "usm: K2 xyz is no key: a key is 1 to 16 hex digits, with or without 0x\n";
    folder.usm(&["clip", "0x159", FIRST, "xyz"]).expect(2, "", why);
}
