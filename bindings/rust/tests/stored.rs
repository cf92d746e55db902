//! Streams that are kept as the library once wrote them: every later library takes them whole, comes to the same station and writes the
//! same bytes. In `tests/stored` a stream stands in NAME.stream, and the station that it leaves beside it as text in NAME.station: a line
//! for the root, for each machine with its start, its holder and what leaving it costs, if that is not 0, and for each node with its
//! machine, whether it is held, the machine below it and its transitions, each as command>target/cost.

mod common;

use common::{mast, Holding};
use himm_model::random::{edit, table, Costs, Growth, Random, Shape};
use himm_model::stream::Command;
use himm_model::tree::{Node, Tree};
use himm_model::{COMMANDS, MACHINES, NODES};
use std::path::PathBuf;

/// A name, and how its book was made when it was stored. The two edited ones are from random edits without
/// holds and costs of leaving.
type Book = (&'static str, fn() -> Holding);

const BOOKS: [Book; 20] = [
    ("fresh", Holding::fresh),
    ("ladder", Holding::ladder),
    ("mast", || mast("")),
    ("full", || Holding::random(&mut Random::new(1), &Shape::full())),
    ("one-node-at-each-level", || Holding::loaded(&(0..7).flat_map(|k| [0x12, 0, k, k + 1, 0, k + 1]).collect::<Vec<u8>>())),
    ("chain-of-eight-levels", || of_shape(2, Shape { growth: Growth::EvenChain, machines: 8, nodes: 48, filled: 30, ..Shape::full() })),
    ("one-machine", || of_shape(3, Shape { machines: 1, nodes: NODES, commands: 2, filled: 60, costs: Costs::Largest, ..Shape::full() })),
    ("two-levels", || of_shape(4, Shape { growth: Growth::Wide, nodes: 140, commands: 3, filled: 50, ..Shape::full() })),
    ("no-costs", || of_shape(5, Shape { machines: 5, nodes: 21, filled: 40, loops: 50, costs: Costs::Zero, ..Shape::full() })),
    ("gaps-1", || of_shape(6, Shape { machines: 3, nodes: 9, filled: 60, costs: Costs::Few, ..Shape::full() })),
    ("gaps-2", || of_shape(7, Shape { machines: 12, nodes: 40, filled: 20, ..Shape::full() })),
    ("gaps-3", || of_shape(8, Shape { growth: Growth::Chain, machines: 6, nodes: 30, commands: 5, filled: 90, ..Shape::full() })),
    ("edited-1", || edited(Holding::fresh(), 9)),
    ("edited-2", || edited(Holding::ladder(), 10)),
    ("highest-numbers", || Holding::loaded(&highest())),
    ("mast-with-holds", || mast("1A 0002 01 1A 000B 01")),
    ("holds", || of_shape(11, Shape { machines: 12, nodes: 40, filled: 40, holds: 30, ..Shape::full() })),
    ("mast-with-leave", || mast("1A 000B 01 1B 01 FF07")),
    ("leaves", || of_shape(12, Shape { machines: 12, nodes: 40, filled: 40, holds: 10, leaves: 70, ..Shape::full() })),
    ("table-with-gaps", || Holding::of_table(&table(&mut Random::new(13), &Shape { machines: 12, nodes: 40, ..Shape::full() }, 60))),
];

/// A random book, with gaps in its numbers where the shape leaves some.
fn of_shape(seed: u64, shape: Shape) -> Holding {
    Holding::random(&mut Random::new(seed), &shape)
}

/// What many random edits make of a holding, removals and crowns among them; a new tree is not begun.
fn edited(mut holding: Holding, seed: u64) -> Holding {
    let mut random = Random::new(seed);
    for _ in 0..300 {
        let command = edit(&mut random, &holding.tree());
        if !matches!(command, Command::Begin { .. }) {
            holding.load(&command.bytes());
        }
    }
    holding
}

/// The last numbers of machines, nodes, commands and costs.
fn highest() -> Vec<u8> {
    let (machine, node, command) = (MACHINES - 1, NODES - 1, COMMANDS - 1);
    let commands = [
        Command::Begin { machine, start: node },
        Command::Add { machine, node: node - 1 },
        Command::Refine { node: node - 1, machine: machine - 1, start: node - 2 },
        Command::Arrow { node, command, target: node - 1, cost: 65535 },
        Command::Arrow { node: node - 1, command, target: node, cost: 0 },
    ];
    himm_model::random::bytes(&commands)
}

/// A file of the folder, by the stream's name and an ending.
fn place(name: &str, ending: &str) -> PathBuf {
    PathBuf::from(env!("CARGO_MANIFEST_DIR")).join("tests/stored").join(format!("{name}.{ending}"))
}

/// A stored stream.
fn stream(name: &str) -> Vec<u8> {
    std::fs::read(place(name, "stream")).expect("a stored stream")
}

/// The stream of a book, as the library writes it now.
fn written(holding: &Holding) -> Vec<u8> {
    let mut out = vec![0; himm::STREAM_BYTES];
    himm::write(&holding.book, &mut out).expect("a well-formed book").to_vec()
}

/// The station as text.
fn station(tree: &Tree) -> String {
    let mut text = format!("root {}\n", tree.root);
    for m in tree.machines_in_use() {
        let machine = tree.machine(m);
        let held = machine.holder.map_or(String::new(), |n| format!(" held by {n}"));
        let leave = if machine.leave == 0 { String::new() } else { format!(", leave {}", machine.leave) };
        text += &format!("machine {m}{held}: start {}{leave}\n", machine.start);
    }
    for (n, node) in tree.nodes.iter().enumerate() {
        text += &node.as_ref().map_or(String::new(), |node| format!("node {n} {}\n", record(node)));
    }
    text
}

/// A node's machine, whether it is held, the machine below it and its transitions.
fn record(node: &Node) -> String {
    let held = if node.on_hold { ", held" } else { "" };
    let holds = node.below.map_or(String::new(), |m| format!(", holds {m}"));
    let own = node.transitions.iter().enumerate().filter_map(|(x, t)| t.map(|t| format!(" {x}>{}/{}", t.target, t.cost)));
    format!("in {}{held}{holds}:{}", node.owner, own.collect::<String>())
}

#[test]
fn each_is_taken_whole_and_leaves_its_station() {
    for (name, _) in BOOKS {
        let (stream, mut holding) = (stream(name), Holding::fresh());
        let loaded = holding.load(&stream);
        assert_eq!((loaded.number, loaded.bytes as usize), (0, stream.len()), "{name}");
        let stored = std::fs::read_to_string(place(name, "station")).expect("a stored station");
        assert!(station(&holding.tree()) == stored, "{name}: another station");
    }
}

#[test]
fn each_is_written_again_byte_by_byte() {
    for (name, _) in BOOKS {
        let (stream, mut holding) = (stream(name), Holding::ladder());
        assert_eq!(holding.load(&stream).number, 0, "{name}");
        assert!(written(&holding) == stream, "{name}: other bytes");
    }
}

/// Stores the books that are not stored yet; what stands in the folder is never written anew. For a book that is to be added:
/// `cargo test --test stored -- --ignored`.
#[test]
#[ignore]
fn store_new_books() {
    for (name, make) in BOOKS.into_iter().filter(|(name, _)| !place(name, "stream").exists()) {
        let holding = make();
        std::fs::write(place(name, "stream"), written(&holding)).expect("a folder to write to");
        std::fs::write(place(name, "station"), station(&holding.tree())).expect("a folder to write to");
    }
}
