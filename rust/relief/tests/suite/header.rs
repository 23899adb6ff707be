//! The header beside what the wrapper says a second time: version, limits, numbers and texts
//! of refusals.

use relief::Reason;

const HEADER: &str = include_str!("../../../../include/relief.h");

/// What the header defines `name` as.
fn defined(name: &str) -> &'static str {
    let start = format!("#define {name} ");
    let mut values = HEADER.lines().filter_map(|line| line.strip_prefix(&start));
    let value = values.next().expect("the header defines it");
    value.split(" /*").next().unwrap_or(value).trim()
}

/// `SamplesLength` as `RELIEF_REFUSED_SAMPLES_LENGTH`.
fn header_name(reason: Reason) -> String {
    let mut name = "RELIEF_REFUSED".to_string();
    for letter in format!("{reason:?}").chars() {
        if letter.is_ascii_uppercase() {
            name.push('_');
        }
        name.push(letter.to_ascii_uppercase());
    }
    name
}

#[test]
fn version() {
    let version = env!("CARGO_PKG_VERSION");
    assert_eq!(defined("RELIEF_VERSION_STRING"), format!("\"{version}\""));
    let parts = ["MAJOR", "MINOR", "PATCH"].map(|part| defined(&format!("RELIEF_VERSION_{part}")));
    assert_eq!(parts.join("."), version);
}

#[test]
fn limits() {
    let limits = [
        ("SIDE", relief::MAX_SIDE as usize),
        ("PIXELS", relief::MAX_PIXELS),
        ("PAIRS", relief::MAX_PAIRS),
        ("WEIGHT", relief::MAX_WEIGHT as usize),
        ("QUICK", relief::MAX_QUICK as usize),
        ("ALLOWANCE", relief::MAX_ALLOWANCE.into()),
        ("TAPE_BYTES", relief::MAX_TAPE_BYTES),
    ];
    for (name, limit) in limits {
        assert_eq!(defined(&format!("RELIEF_MAX_{name}")), limit.to_string());
    }
}

#[test]
fn refusals() {
    for reason in Reason::ALL {
        let name = header_name(reason);
        let number = format!("    {name} = {}", reason.number());
        let numbered =
            |line: &str| line.split([',', '/']).next().map(str::trim_end) == Some(&number);
        assert!(HEADER.lines().any(numbered), "{number}");
        let text = format!("    case {name}:\n        return \"{reason}\";\n");
        assert!(HEADER.contains(&text), "{text}");
    }
    let named = HEADER
        .lines()
        .filter(|line| line.starts_with("    RELIEF_REFUSED_"));
    assert_eq!(named.count(), Reason::ALL.len());
}
