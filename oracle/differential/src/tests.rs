//! The exported calls are declared alike in our code, for C and for Rust.

const OURS: &str = include_str!("../../../crates/hullashlar_c/src/lib.rt");
const FOR_C: &str = include_str!("../../../include/hullashlar.h");
const FOR_RUST: &str = include_str!("../../../rust/hullashlar/src/declared.rs");

/// A call's name, and its arguments with their types in Rust's words, where a whole number of
/// 64 bits is a u64, whether it counts or is a pattern.
type Declared = (String, Vec<String>);

/// The calls of a text, whose arguments are put into Rust's words one by one. What
/// else has a name like theirs is no call: no argument follows the name.
fn declared(text: &str, in_rust: fn(&str) -> Vec<String>) -> Vec<Declared> {
    let named = text.split(" hullashlar_").skip(1);
    let call = |named: &str| {
        let (name, rest) = named.split_once('(')?;
        let (arguments, _) = rest.split_once(')')?;
        let is_call = name
            .chars()
            .all(|letter| letter.is_alphanumeric() || letter == '_');
        let arguments = arguments.split(',').map(str::trim);
        let given = arguments.filter(|argument| !argument.is_empty());
        is_call.then(|| (name.to_string(), given.flat_map(in_rust).collect()))
    };
    named.filter_map(call).collect()
}

/// A slice of ours is a pointer and a length.
fn of_ours(argument: &str) -> Vec<String> {
    let (name, own_type) = argument.split_once(": ").expect("an argument has a type");
    let own_type = own_type.replace("usize", "u64");
    let pointer = |access: &str, items: &str| {
        let item = items.trim_end_matches(']');
        vec![
            format!("{name}: *{access} {item}"),
            format!("{name}_length: u64"),
        ]
    };
    match own_type.split_once('[') {
        Some(("&", items)) => pointer("const", items),
        Some(("&mut ", items)) => pointer("mut", items),
        _ => vec![format!("{name}: {own_type}")],
    }
}

/// The header without the lines of its comments, which have an example, and of its own function, which is no call.
fn without_comments(header: &str) -> String {
    let in_a_comment = |line: &&str| {
        let begin = line.trim_start();
        begin.starts_with("/*") || begin.starts_with('*') || begin.starts_with("static inline")
    };
    let code = header.lines().filter(|line| !in_a_comment(line));
    code.collect::<Vec<_>>().join("\n")
}

fn of_c(argument: &str) -> Vec<String> {
    let end = argument
        .rfind([' ', '*'])
        .expect("an argument has a type and a name");
    let (c_type, name) = argument.split_at(end + 1);
    let rust_type = match c_type.trim() {
        "uint8_t" => "u8",
        "int32_t" => "i32",
        "uint64_t" => "u64",
        "double" => "f64",
        "const double *" => "*const f64",
        "const uint64_t *" => "*const u64",
        "const uint8_t *" => "*const u8",
        "double *" => "*mut f64",
        "uint64_t *" => "*mut u64",
        "uint8_t *" => "*mut u8",
        "int32_t *" => "*mut i32",
        "uint32_t *" => "*mut u32",
        other => panic!("no type is known for {other}"),
    };
    vec![format!("{name}: {rust_type}")]
}

/// What is counted has 64 bits on every processor.
fn of_rust(argument: &str) -> Vec<String> {
    vec![argument.replace("Count", "u64")]
}

#[test]
fn the_calls_are_declared_alike() {
    let ours = declared(OURS, of_ours);
    assert!(!ours.is_empty());
    assert_eq!(declared(&without_comments(FOR_C), of_c), ours);
    assert_eq!(declared(FOR_RUST, of_rust), ours);
}
