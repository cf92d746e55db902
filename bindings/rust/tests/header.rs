//! The numbers and calls of the bindings are those of the header.

use himm::Refusal;
use himm_model::stream::Command;

const HEADER: &str = include_str!("../../../include/himm.h");
const RAW: &str = include_str!("../src/raw.rs");

/// The number that the header defines under a name.
fn defined(name: &str) -> usize {
    let value = |line: &str| line.strip_prefix("#define ")?.strip_prefix(name)?.strip_prefix(' ').map(str::to_string);
    let values: Vec<String> = HEADER.lines().filter_map(value).collect();
    assert_eq!(values.len(), 1, "{name} is defined {} times", values.len());
    let word = values[0].split_whitespace().next().expect("a number");
    match word.strip_prefix("0x") {
        Some(digits) => usize::from_str_radix(digits, 16).expect("a number"),
        None => word.parse().expect("a number"),
    }
}

#[test]
fn the_version() {
    assert_eq!(himm::VERSION as usize, defined("HIMM_VERSION"));
}

#[test]
fn limits_and_sizes() {
    let numbers = [
        ("HIMM_MACHINES", himm::MACHINES),
        ("HIMM_NODES", himm::NODES),
        ("HIMM_COMMANDS", himm::COMMANDS),
        ("HIMM_LEVELS", himm::LEVELS),
        ("HIMM_WALKERS", himm::WALKERS),
        ("HIMM_BOOK_WORDS", himm::BOOK_WORDS),
        ("HIMM_SHEET_WORDS", himm::SHEET_WORDS),
        ("HIMM_ROW_WORDS", himm::ROW_WORDS),
        ("HIMM_TABLE_WORDS", himm::TABLE_WORDS),
        ("HIMM_LARGEST_DEPTH", himm::LARGEST_DEPTH as usize),
        ("HIMM_ABSENT", himm::ABSENT as usize),
        ("HIMM_PLAN_BYTES", himm::PLAN_BYTES),
        ("HIMM_STREAM_BYTES", himm::STREAM_BYTES),
        ("HIMM_IMPORT_BYTES", himm::IMPORT_BYTES),
        ("HIMM_LIST_COMMANDS", himm::LIST_COMMANDS),
        ("HIMM_REFRESH", himm::REFRESH as usize),
        ("HIMM_HOLD", himm::HOLD as usize),
        ("HIMM_LEAVE", himm::LEAVE as usize),
        ("HIMM_SECONDS_TAKEN", himm::raw::HIMM_SECONDS_TAKEN as usize),
        ("HIMM_SECONDS_WAITED", himm::raw::HIMM_SECONDS_WAITED as usize),
    ];
    for (name, value) in numbers {
        assert_eq!(value, defined(name), "{name}");
    }
}

/// A command climbs past one machine less than there are levels, and a plan has as many commands as its buffer bytes.
#[test]
fn largest_costs() {
    let step = himm::LEVELS * defined("HIMM_LARGEST_COST");
    assert_eq!((step, defined("HIMM_LARGEST_STEP_COST")), (524_280, 524_280));
    assert_eq!((himm::PLAN_BYTES * step, defined("HIMM_LARGEST_PLAN_COST")), (133_691_400, 133_691_400));
}

/// Every opcode is the model's, and the header has no others.
#[test]
fn opcodes() {
    let [machine, node, start, command, target, cost, hold] = [0; 7];
    let all = [
        ("HIMM_BEGIN", Command::Begin { machine, start }),
        ("HIMM_ADD", Command::Add { machine, node }),
        ("HIMM_REFINE", Command::Refine { node, machine, start }),
        ("HIMM_REMOVE", Command::Remove { node }),
        ("HIMM_ARROW", Command::Arrow { node, command, target, cost }),
        ("HIMM_CLEAR", Command::Clear { node, command }),
        ("HIMM_START", Command::Start { node }),
        ("HIMM_CROWN", Command::Crown { machine, node }),
        ("HIMM_REFRESH", Command::Refresh),
        ("HIMM_HOLD", Command::Hold { node, hold }),
        ("HIMM_LEAVE", Command::Leave { machine, cost }),
    ];
    for (name, command) in all {
        assert_eq!(command.bytes()[0] as usize, defined(name), "{name}");
    }
    let in_hexadecimal = |line: &&str| line.starts_with("#define ") && line.contains(" 0x");
    assert_eq!(HEADER.lines().filter(in_hexadecimal).count(), all.len());
}

/// The header's name of a refusal.
fn header_name(refusal: Refusal) -> String {
    let word = |c: char| if c.is_uppercase() { format!("_{c}") } else { c.to_uppercase().to_string() };
    format!("HIMM{}", format!("{refusal:?}").chars().map(word).collect::<String>())
}

#[test]
fn refusals() {
    let named = |line: &str| line.strip_prefix("  ")?.split_once(" = ").map(|(name, rest)| (name.to_string(), rest.to_string()));
    let number = |rest: &str| rest.split([',', ' ']).next().and_then(|digits| digits.parse().ok()).expect("a number");
    let all: Vec<(String, u32)> = HEADER.lines().filter_map(named).map(|(name, rest)| (name, number(&rest))).collect();
    let ours = Refusal::ALL.map(|refusal| (header_name(refusal), refusal.number()));
    assert_eq!(all[0], ("HIMM_OK".to_string(), 0));
    assert_eq!(all[1..], ours);
}

/// The calls of a text, each with its arguments: a name after a mark, and a list between parentheses.
fn calls(text: &str, mark: &str) -> Vec<(String, Vec<String>)> {
    let call = |rest: &str| {
        let (name, rest) = rest.split_once('(').expect("a list of arguments");
        let (list, _) = rest.split_once(')').expect("its end");
        let arguments = list.split(',').map(|a| a.split_whitespace().collect::<Vec<_>>().join(" "));
        (name.to_string(), arguments.filter(|a| !a.is_empty()).collect())
    };
    text.split(mark).skip(1).map(call).collect()
}

/// An argument of the header as Rust writes it.
fn in_rust(argument: &str) -> String {
    let (kind, name) = argument.rsplit_once(' ').expect("a type and a name");
    let (way, kind, name) = match (name.strip_prefix('*'), kind.strip_prefix("const ")) {
        (Some(name), Some(kind)) => ("*const ", kind, name),
        (Some(name), None) => ("*mut ", kind, name),
        (None, _) => ("", kind, name),
    };
    let kind = match kind {
        "size_t" => "usize".to_string(),
        "float" => "f32".to_string(),
        _ => kind.replace("uint", "u").replace("_t", ""),
    };
    format!("{name}: {way}{kind}")
}

#[test]
fn arguments_of_every_call() {
    let header = calls(HEADER, "\nuint32_t himm_").into_iter();
    let header: Vec<_> = header.map(|(name, all)| (name, all.iter().map(|a| in_rust(a)).collect())).collect();
    assert!(header.len() >= 9);
    assert_eq!(header, calls(RAW, "pub fn himm_"));
}
