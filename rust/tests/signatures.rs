//! src/entries.rs declares what crates/host_c/src exports, parameter by parameter.

use std::collections::BTreeSet;
use std::fs;

const HERE: &str = env!("CARGO_MANIFEST_DIR");

/// Names, parameters and what is given back, without blanks; what is not said is a call's number.
fn signatures(text: &str) -> BTreeSet<String> {
    let text = text.split_whitespace().collect::<String>().replace(';', ",");
    let signature = |rest: &str| {
        let (head, tail) = rest.split_once(')').unwrap();
        let given: String = tail.strip_prefix("->").unwrap_or("u8").chars().take_while(|c| c.is_ascii_digit() || *c == 'u').collect();
        format!("{})->{given}", head.trim_end_matches(','))
    };
    text.split("fnpouch_").skip(1).map(signature).collect()
}

#[test]
fn the_librarys() {
    let folder = fs::read_dir(format!("{HERE}/../crates/host_c/src")).unwrap();
    let exported: String = folder.map(|file| fs::read_to_string(file.unwrap().path()).unwrap()).collect();
    let exported = signatures(&exported);
    let declared = signatures(&fs::read_to_string(format!("{HERE}/src/entries.rs")).unwrap());
    assert_eq!(declared.difference(&exported).collect::<Vec<_>>(), Vec::<&String>::new());
    assert!(30 < declared.len());
}
