//! docs/JSON.md is what the command writes: each example in it is run, and each field is in its table.

use std::collections::BTreeSet;

use serde_json::Value;

use crate::support::{Folder, KEY, example, talkie};

const SCHEMA: &str = include_str!(concat!(env!("CARGO_MANIFEST_DIR"), "/../../docs/JSON.md"));

/// One film that two keys make one copy and a third another, and one that is refused.
const HOLDINGS: &str = "tenant,name,key,film,title
7,North,0123456789ABCDEF,song.usm,Lark
3,East,FF23456789ABCDEF,song.usm,Lark
7,North,1,song.usm,Lark
3,East,,cut.usm,Wren
";

/// The examples of the document: a line of shell, and the objects that it writes.
fn examples() -> Vec<(&'static str, Vec<&'static str>)> {
    let mut examples: Vec<(&str, Vec<&str>)> = Vec::new();
    for line in SCHEMA.lines() {
        if let Some(command) = line.strip_prefix("    $ ") {
            examples.push((command, Vec::new()));
        } else if let Some(object) = line.strip_prefix("    {") {
            let (_, objects) = examples.last_mut().expect("a command stands before its objects");
            objects.push(&line[line.len() - object.len() - 1..]);
        }
    }
    examples
}

/// The fields that the tables of the document name.
fn documented() -> BTreeSet<&'static str> {
    let rows = SCHEMA.lines().filter_map(|line| line.strip_prefix("| `")?.split('`').next());
    rows.collect()
}

fn fields_of(value: &Value, fields: &mut BTreeSet<String>) {
    match value {
        Value::Object(object) => {
            for (name, value) in object {
                fields.insert(name.clone());
                fields_of(value, fields);
            }
        }
        Value::Array(values) => values.iter().for_each(|value| fields_of(value, fields)),
        _ => {}
    }
}

fn folder() -> Folder {
    let folder = Folder::with_films();
    folder.write("old.usm", &example("old.usm"));
    folder.write("talkie.usm", &talkie());
    folder.write("tenants.csv", format!("7,{KEY}\n3,FF23456789ABCDEF\n").as_bytes());
    folder.write("three.csv", format!("7,{KEY}\n3,FF23456789ABCDEF\n9,0123456789ABCDEE\n").as_bytes());
    folder.write("holdings.csv", HOLDINGS.as_bytes());
    folder
}

#[test]
fn examples_are_what_is_written() {
    let examples = examples();
    assert!(examples.len() >= 10, "{examples:?}");
    let mut fields = BTreeSet::new();
    for (command, objects) in examples {
        let line = command.replacen("usm ", "$USM ", 1);
        let run = folder().shell(&line);
        assert_eq!(run.out.lines().collect::<Vec<_>>(), objects, "{command}");
        for object in objects {
            let value: Value = serde_json::from_str(object).unwrap();
            assert_eq!(value["schema"], 1, "{object}");
            assert!(value["kind"].is_string(), "{object}");
            fields_of(&value, &mut fields);
        }
    }
    let documented = documented();
    for field in &fields {
        assert!(documented.contains(field.as_str()), "{field} is in no table");
    }
    for field in documented {
        assert!(fields.contains(field), "{field} is in no example");
    }
}
