//! HOLDINGS as it is read. tests/holdings.json has files, and what is made of each; the package for Python reads the same
//! files without the command, and is tested by the same list (python/tests/test_holdings.py).

use serde_json::{Value, json};

use crate::support::{Folder, Run};

const RECORDED: &str = include_str!(concat!(env!("CARGO_MANIFEST_DIR"), "/tests/holdings.json"));

#[test]
fn every_recorded_file_is_read_as_recorded() {
    let recorded: Value = serde_json::from_str(RECORDED).unwrap();
    for case in recorded["cases"].as_array().unwrap() {
        let folder = Folder::new();
        folder.write("house.csv", &bytes_of(&case["file"]));
        let run = folder.usm(&["bill", "--json", "house.csv"]);
        match case.get("wrong") {
            Some(wrong) => assert_eq!((run.status, &wrong_lines(&run)), (2, wrong), "{}", case["case"]),
            None => assert_eq!(held(&run), with_hex(&case["holdings"]), "{}", case["case"]),
        }
    }
}

/// The bytes that the characters of a text stand for, one each.
fn bytes_of(text: &Value) -> Vec<u8> {
    text.as_str().unwrap().chars().map(|character| u8::try_from(character).unwrap()).collect()
}

/// The lines that a run says are wrong, each with the message.
fn wrong_lines(run: &Run) -> Value {
    let lines = run.err.lines().filter_map(|line| line.strip_prefix("usm: house.csv: line ")?.split_once(": "));
    lines.map(|(number, why)| json!([number.parse::<u64>().unwrap(), why])).collect()
}

/// The holdings that a run has read: line, tenant, key, and the film's path in hex.
fn held(run: &Run) -> Value {
    let objects = run.out.lines().map(|line| serde_json::from_str::<Value>(line).unwrap());
    let holdings = objects.filter(|object| object["kind"] == "holding");
    holdings.map(|held| json!([held["line"], held["tenant"], held["key"], held["file_hex"]])).collect()
}

/// The recorded holdings with the films' paths in hex.
fn with_hex(holdings: &Value) -> Value {
    let hex = |bytes: Vec<u8>| bytes.iter().map(|byte| format!("{byte:02x}")).collect::<String>();
    let holdings = holdings.as_array().unwrap().iter();
    holdings.map(|held| json!([held[0], held[1], held[2], hex(bytes_of(&held[3]))])).collect()
}
