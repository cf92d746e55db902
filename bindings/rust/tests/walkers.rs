//! Walkers: the mast book and the ladder with the numbers worked out, limits and lists of walkers, each refusal in its order, random books
//! with long lists of walker commands, damaged books and torn lists of walkers.

mod common;

use common::damage::{copy_a_field, put_over, words};
use common::walkers::Walkers;
use common::{counts, mast, Holding};
use himm::{Moved, Refusal};
use himm_model::book::{machine_at, node_at};
use himm_model::calls::read_book;
use himm_model::random::{Growth, Random, Shape};
use himm_model::tree::Tree;
use himm_model::{ABSENT, BOOK_WORDS, COMMANDS, LEVELS, NODES, WALKERS};

/// A book, and what the model reads in it.
struct Book {
    words: Vec<u32>,
    tree: Result<Tree, u32>,
}

impl Book {
    fn of(words: Vec<u32>) -> Book {
        Book { tree: read_book(&words), words }
    }

    /// The mast book with further commands, as hexadecimal text.
    fn mast(more: &str) -> Book {
        Book::of(mast(more).book)
    }

    fn random(random: &mut Random, shape: &Shape) -> Book {
        Book::of(Holding::random(random, shape).book)
    }

    fn tree(&self) -> &Tree {
        self.tree.as_ref().expect("a well-formed book")
    }

    /// The nodes in use that are as asked.
    fn nodes(&self, fits: impl Fn(usize) -> bool) -> Vec<u32> {
        (0..NODES).filter(|&n| self.tree().nodes[n].is_some() && fits(n)).map(|n| n as u32).collect()
    }

    fn states(&self) -> Vec<u32> {
        self.nodes(|n| self.tree().is_state(n))
    }

    fn refined(&self) -> Vec<u32> {
        self.nodes(|n| !self.tree().is_state(n))
    }

    fn unused(&self) -> Vec<u32> {
        (0..NODES).filter(|&n| self.tree().nodes[n].is_none()).map(|n| n as u32).collect()
    }

    fn open(&self, walkers: &Walkers) -> Result<(), Refusal> {
        walkers.open(&self.words, &self.tree)
    }

    fn walk(&self, walkers: &mut Walkers, walker: u32, command: u32) -> Result<Moved, Refusal> {
        walkers.walk(&self.words, &self.tree, walker, command)
    }

    /// The opening of walkers and a command for one of them, which leaves the walkers where they are; both must refuse alike.
    fn refuse_both(&self, walkers: &Walkers, walker: u32, command: u32) -> Option<Refusal> {
        let mut after = walkers.clone();
        let (opened, walked) = (self.open(walkers), self.walk(&mut after, walker, command));
        assert_eq!((opened.err(), walkers), (walked.err(), &after));
        opened.err()
    }

    /// The states inside a node, by the words of the book and from the node down: itself where it is plain, else those inside each node of
    /// the machine below it.
    fn inside(&self, node: u32) -> Vec<u32> {
        match self.words[node_at(node as usize) + 1] {
            ABSENT => vec![node],
            machine => (0..NODES as u32).filter(|&n| self.words[node_at(n as usize)] == machine).flat_map(|n| self.inside(n)).collect(),
        }
    }
}

/// Random states for so many walkers: some of any kind, most of those in the machine that a node belongs to or below it, from where a command
/// may lead inside the node.
fn around(book: &Book, node: u32, number: usize, random: &mut Random) -> Vec<u32> {
    let near = book.tree().up(node as usize).map_or(book.states(), |holder| book.inside(holder as u32));
    (0..number).map(|_| if random.chance(30) { random.pick(&book.states()) } else { random.pick(&near) }).collect()
}

/// How many walkers are at one of some states.
fn count(walkers: &Walkers, inside: &[u32]) -> usize {
    walkers.states.iter().filter(|state| inside.contains(state)).count()
}

fn moved(state: u32, cost: u32, node: u32) -> Result<Moved, Refusal> {
    Ok(Moved { state, cost, node })
}

/// A walker, its command, what is given, and the walkers' states after it.
type Command<const N: usize> = (u32, u32, Result<Moved, Refusal>, [u32; N]);

/// Walker commands one after another.
fn follow<const N: usize>(book: &Book, walkers: &mut Walkers, all: &[Command<N>]) {
    for &(walker, command, answer, states) in all {
        assert_eq!(book.walk(walkers, walker, command), answer, "walker {walker} by {command}");
        assert_eq!(walkers.states, states, "walker {walker} by {command}");
    }
}

// The mast book: nodes 0, 1 and 2 in the root, 10 and 11 below node 1.

/// One walker inside node 1. It moves on there and leaves, while those outside are refused and then let in; outside all goes on.
#[test]
fn one_inside_the_refined_node() {
    let (book, mut walkers) = (Book::mast(""), Walkers::at(1, 1, &[0, 0, 2]));
    assert_eq!(book.open(&walkers), Ok(()));
    let all = [
        (0, 0, moved(10, 5, 0), [10, 0, 2]),
        (1, 0, Err(Refusal::NodeFull), [10, 0, 2]),
        (0, 1, moved(10, 1, 10), [10, 0, 2]),
        (0, 2, moved(11, 4, 10), [11, 0, 2]),
        (1, 0, Err(Refusal::NodeFull), [11, 0, 2]),
        (0, 0, Err(Refusal::Stops), [11, 0, 2]),
        (0, 1, moved(2, 3, 1), [2, 0, 2]),
        (1, 0, moved(10, 5, 0), [2, 10, 2]),
        (0, 0, moved(0, 7, 2), [0, 10, 2]),
        (0, 0, Err(Refusal::NodeFull), [0, 10, 2]),
        (0, 2, moved(2, 20, 0), [2, 10, 2]),
        (2, 0, moved(0, 7, 2), [2, 10, 0]),
        (2, 0, Err(Refusal::NodeFull), [2, 10, 0]),
        (0, 1, Err(Refusal::Stops), [2, 10, 0]),
        (3, 0, Err(Refusal::OutOfRange), [2, 10, 0]),
        (1, 16, Err(Refusal::OutOfRange), [2, 10, 0]),
        (1, 2, moved(11, 4, 10), [2, 11, 0]),
        (1, 1, moved(2, 3, 1), [2, 2, 0]),
        (2, 0, moved(10, 5, 0), [2, 2, 10]),
    ];
    follow(&book, &mut walkers, &all);
}

/// It is the state that a command leads to that is inside or not: node 0's transition goes to node 1 and so to state 10. With 10 limited
/// that is refused, with 11 limited it is not.
#[test]
fn plain_nodes() {
    let book = Book::mast("");
    follow(&book, &mut Walkers::at(10, 0, &[0]), &[(0, 0, Err(Refusal::NodeFull), [0]), (0, 2, moved(2, 20, 0), [2])]);
    let from_below = [(1, 0, moved(10, 5, 0), [11, 10]), (1, 2, Err(Refusal::NodeFull), [11, 10]), (0, 1, moved(2, 3, 1), [2, 10])];
    follow(&book, &mut Walkers::at(11, 1, &[11, 0]), &from_below);
    let itself = [(0, 1, moved(10, 1, 10), [10, 0]), (1, 0, Err(Refusal::NodeFull), [10, 0]), (0, 2, moved(11, 4, 10), [11, 0])];
    follow(&book, &mut Walkers::at(10, 1, &[10, 0]), &itself);
    let start = [(0, 0, Err(Refusal::NodeFull), [2, 11]), (1, 1, moved(2, 3, 1), [2, 2]), (1, 0, Err(Refusal::NodeFull), [2, 2])];
    follow(&book, &mut Walkers::at(0, 0, &[2, 11]), &start);
}

/// A transition of the node to itself leads out of it and in again: from inside to inside, and so taken at the limit.
#[test]
fn out_and_in_again_at_the_limit() {
    let (book, mut walkers) = (Book::mast("14 0001 04 0001 0002 14 0000 05 0001 0006"), Walkers::at(1, 1, &[11, 0]));
    let all = [(1, 5, Err(Refusal::NodeFull), [11, 0]), (0, 4, moved(10, 2, 1), [10, 0]), (0, 4, moved(10, 2, 1), [10, 0])];
    follow(&book, &mut walkers, &all);
}

/// A stop is told before a full node, and a held node stops those outside; a walker inside leaves.
#[test]
fn held_nodes() {
    let (book, mut walkers) = (Book::mast("1A 0001 01"), Walkers::at(1, 1, &[10, 0]));
    let all = [
        (1, 0, Err(Refusal::Stops), [10, 0]),
        (0, 2, moved(11, 4, 10), [11, 0]),
        (0, 1, moved(2, 3, 1), [2, 0]),
        (1, 0, Err(Refusal::Stops), [2, 0]),
    ];
    follow(&book, &mut walkers, &all);
    // Past the held state 11, node 1's transition leads from 10 to 2, which is limited.
    let (book, mut walkers) = (Book::mast("14 0001 02 0002 0006 1A 000B 01"), Walkers::at(2, 1, &[10, 2]));
    let all = [(0, 2, Err(Refusal::NodeFull), [10, 2]), (1, 0, moved(0, 7, 2), [10, 0]), (0, 2, moved(2, 6, 1), [2, 0])];
    follow(&book, &mut walkers, &all);
}

/// Several walkers at one state are counted one by one and move one by one.
#[test]
fn walkers_at_one_state() {
    let (book, mut walkers) = (Book::mast(""), Walkers::at(1, 3, &[10, 10, 0, 0]));
    let all = [
        (1, 2, moved(11, 4, 10), [10, 11, 0, 0]),
        (2, 0, moved(10, 5, 0), [10, 11, 10, 0]),
        (3, 0, Err(Refusal::NodeFull), [10, 11, 10, 0]),
        (1, 1, moved(2, 3, 1), [10, 2, 10, 0]),
        (3, 0, moved(10, 5, 0), [10, 2, 10, 10]),
    ];
    follow(&book, &mut walkers, &all);
}

/// How many are inside each node of the mast book, by the least limit that the opening takes.
#[test]
fn how_many_are_inside() {
    let book = Book::mast("");
    let least = |states: &[u32]| {
        [0, 1, 2, 10, 11].map(|node| {
            let taken: Vec<bool> = (0..=8).map(|limit| book.open(&Walkers::at(node, limit, states)).is_ok()).collect();
            assert!(taken.is_sorted());
            taken.iter().filter(|&&taken| !taken).count()
        })
    };
    assert_eq!((least(&[]), least(&[0]), least(&[2]), least(&[10])), ([0; 5], [1, 0, 0, 0, 0], [0, 0, 1, 0, 0], [0, 1, 0, 1, 0]));
    assert_eq!((least(&[10, 11, 10, 2]), least(&[0, 0, 11])), ([0, 3, 1, 2, 1], [2, 1, 0, 0, 1]));
    assert_eq!((least(&[11; 8]), least(&[0, 2, 10, 11, 0, 2, 10, 11])), ([0, 8, 0, 0, 8], [2, 4, 2, 2, 2]));
}

/// Every two walkers on the mast book, with every node, limit and command, a number of each more than there is.
#[test]
fn every_pair_of_walkers() {
    let book = Book::mast("14 0001 03 0001 0002");
    let mut courses = Courses::default();
    for node in [0, 1, 2, 10, 11] {
        let inside = book.inside(node);
        for states in [0, 2, 10, 11].into_iter().flat_map(|a| [0, 2, 10, 11].map(|b| [a, b])) {
            for limit in 0..=9 {
                let walkers = Walkers::at(node, limit, &states);
                let fits = limit <= 8 && count(&walkers, &inside) <= limit as usize;
                for (walker, command) in (0..=2).flat_map(|walker| (0..=16).map(move |command| (walker, command))) {
                    if fits {
                        assert_eq!(book.open(&walkers), Ok(()));
                        courses.judge(&book, &inside, &mut walkers.clone(), walker, command);
                    } else {
                        assert_eq!(book.refuse_both(&walkers, walker, command), Some(Refusal::TooManyWalkers));
                    }
                }
            }
        }
    }
    assert!(courses.0.iter().all(|&count| count > 10), "{courses:?}");
}

/// State 94 of the ladder is below 45, which is below 21, that below 9, that below 3, and that below 0.
#[test]
fn six_levels_of_the_ladder() {
    let book = Book::of(Holding::ladder().book);
    let opened = |node: u32, limit: u32, states: &[u32]| book.open(&Walkers::at(node, limit, states)).is_ok();
    let shut: Vec<u32> = (0..189).filter(|&node| !opened(node, 0, &[94])).collect();
    assert_eq!(shut, [0, 3, 9, 21, 45, 94]);
    assert!((0..189).all(|node| opened(node, 1, &[94])));
    assert_eq!((book.inside(0).len(), book.inside(45).len()), (63, 3));
    // From 1, the root's start, command 0 leads to node 0 and so to state 4; the transitions of 3, 9, 21, 45 are above 94.
    for node in [0, 3, 9, 21, 45] {
        follow(&book, &mut Walkers::at(node, 1, &[94, 1]), &[(0, 0, moved(93, 1, 94), [93, 1]), (0, 1, moved(94, 1, 93), [94, 1])]);
    }
    let all = [(1, 0, Err(Refusal::NodeFull), [94, 1]), (1, 1, moved(7, 1, 1), [94, 7])];
    follow(&book, &mut Walkers::at(0, 1, &[94, 1]), &all);
    follow(&book, &mut Walkers::at(3, 1, &[94, 1]), &[(1, 0, moved(4, 1, 1), [94, 4]), (1, 0, Err(Refusal::NodeFull), [94, 4])]);
}

// Limits and numbers of walkers.

/// Limit 0: nobody comes inside, and with a walker inside there is no opening.
#[test]
fn limit_of_0() {
    let book = Book::mast("");
    assert_eq!(book.open(&Walkers::at(1, 0, &[0, 2])), Ok(()));
    let all = [(0, 0, Err(Refusal::NodeFull), [0, 2]), (1, 0, moved(0, 7, 2), [0, 0]), (0, 2, moved(2, 20, 0), [2, 0])];
    follow(&book, &mut Walkers::at(1, 0, &[0, 2]), &all);
    assert_eq!(book.refuse_both(&Walkers::at(1, 0, &[0, 11]), 0, 2), Some(Refusal::TooManyWalkers));
}

/// Eight walkers go inside one after another as far as the limit allows; with a limit of 8 all of them do.
#[test]
fn eight_walkers() {
    let book = Book::mast("");
    for limit in 0..=8 {
        let mut walkers = Walkers::at(1, limit, &[0; 8]);
        assert_eq!(book.open(&walkers), Ok(()));
        for walker in 0..8 {
            let answer = if walker < limit { moved(10, 5, 0) } else { Err(Refusal::NodeFull) };
            assert_eq!(book.walk(&mut walkers, walker, 0), answer, "walker {walker} at limit {limit}");
        }
        assert_eq!(count(&walkers, &[10, 11]), limit as usize);
    }
}

/// No walker: every limit up to 8 is opened, and no command has a walker.
#[test]
fn no_walker() {
    let book = Book::mast("");
    for node in [0, 1, 2, 10, 11] {
        for limit in 0..=8 {
            assert_eq!(book.open(&Walkers::at(node, limit, &[])), Ok(()));
            for walker in [0, 1, 8, u32::MAX] {
                assert_eq!(book.walk(&mut Walkers::at(node, limit, &[]), walker, 0), Err(Refusal::OutOfRange));
            }
        }
        assert_eq!(book.refuse_both(&Walkers::at(node, 9, &[]), 0, 0), Some(Refusal::TooManyWalkers));
    }
}

/// A limit or a number of walkers over 8, whatever the states: 23 before 6, where too many inside come after 6, 7 and 14.
#[test]
fn too_many_and_too_many_inside() {
    let book = Book::mast("");
    for (limit, number) in [(9, 0), (9, 8), (u32::MAX, 1), (65536, 1), (8, 9), (0, 9), (8, 10), (8, 257), (9, 9), (u32::MAX, 10_000)] {
        for state in [2, 10, 1, 3, 256, u32::MAX] {
            for node in [1, 2, 3, 256, u32::MAX] {
                let walkers = Walkers::at(node, limit, &vec![state; number]);
                assert_eq!(book.refuse_both(&walkers, 0, 0), Some(Refusal::TooManyWalkers), "{number} walkers at {state}, limit {limit}");
            }
        }
    }
    let crowded = |last: u32, node: u32| book.refuse_both(&Walkers::at(node, 1, &[10, 11, 0, last]), 2, 0);
    assert_eq!((crowded(0, 1), crowded(10, 1)), (Some(Refusal::TooManyWalkers), Some(Refusal::TooManyWalkers)));
    let [range, unused, refined] = [Refusal::OutOfRange, Refusal::NotInUse, Refusal::NotPlain].map(Some);
    assert_eq!((crowded(256, 1), crowded(3, 1), crowded(1, 1)), (range, unused, refined));
    assert_eq!((crowded(0, 256), crowded(0, 3), crowded(1, 3)), (range, unused, unused));
    assert_eq!(book.open(&Walkers::at(1, 8, &[11; 8])), Ok(()));
}

// Refusals in their order.

/// What may be wrong with a walker command on the mast book, in the order of the refusals.
const FAULTS: [(Fault, Refusal); 14] = [
    (|lent| lent.book.truncate(BOOK_WORDS - 1), Refusal::WrongLength),
    (|lent| lent.book[0] = 1, Refusal::TornBook),
    (|lent| lent.walkers.limit = 9, Refusal::TooManyWalkers),
    (|lent| lent.walkers.states.resize(9, 0), Refusal::TooManyWalkers),
    (|lent| lent.walkers.node = 256, Refusal::OutOfRange),
    (|lent| lent.walkers.states.push(256), Refusal::OutOfRange),
    (|lent| lent.walkers.node = 3, Refusal::NotInUse),
    (|lent| lent.walkers.states.push(255), Refusal::NotInUse),
    (|lent| lent.walkers.states.push(1), Refusal::NotPlain),
    (|lent| lent.walkers.states.extend([10, 11]), Refusal::TooManyWalkers),
    (|lent| lent.walker = 9, Refusal::OutOfRange),
    (|lent| lent.command = 16, Refusal::OutOfRange),
    (|lent| lent.command = 1, Refusal::Stops),
    (|lent| lent.walkers.states.push(10), Refusal::NodeFull),
];

type Fault = fn(&mut Lent);

/// What a walker command is lent.
struct Lent {
    book: Vec<u32>,
    walkers: Walkers,
    walker: u32,
    command: u32,
}

/// Every set of faults: the first of them is told, by the opening too where it is one of the opening's, and nothing lent has changed.
#[test]
fn every_set_of_faults() {
    let good = mast("").book;
    for set in 0..1u32 << FAULTS.len() {
        let mut lent = Lent { book: good.clone(), walkers: Walkers::at(1, 1, &[0]), walker: 0, command: 0 };
        let among = |at: &usize| set >> at & 1 == 1;
        // Where two faults write the same word, the one that is told first has to stand.
        (0..FAULTS.len()).rev().filter(among).for_each(|at| FAULTS[at].0(&mut lent));
        let first = (0..FAULTS.len()).find(among);
        let (book, mut walkers) = (Book::of(lent.book.clone()), lent.walkers.clone());
        assert_eq!(book.open(&walkers).err(), first.filter(|&at| at < 10).map(|at| FAULTS[at].1), "faults {set:b}");
        let answer = book.walk(&mut walkers, lent.walker, lent.command);
        match first {
            Some(at) => assert_eq!((answer, &walkers), (Err(FAULTS[at].1), &lent.walkers), "faults {set:b}"),
            None => assert_eq!((answer, &walkers.states[..]), (moved(10, 5, 0), &[10][..])),
        }
        assert!(book.words == lent.book, "faults {set:b}: the book is another");
    }
}

// Random books and lists of commands.

/// How often each course of a walker command was met: from outside to outside, in, out, inside with room left, inside at the limit, a stop,
/// a full node, and numbers out of range.
#[derive(Debug, Default)]
struct Courses([usize; 8]);

impl Courses {
    /// One command on walkers that keep their limit, compared with the model and judged by Step and by the states inside the node: it is a
    /// step of the one walker, refused as a step is, or refused since the node is full; and the limit is kept.
    fn judge(&mut self, book: &Book, inside: &[u32], walkers: &mut Walkers, walker: u32, command: u32) {
        let (mut expected, full) = (walkers.clone(), count(walkers, inside) == walkers.limit as usize);
        let answer = book.walk(walkers, walker, command);
        let course = match walkers.states.get(walker as usize).filter(|_| command < COMMANDS as u32) {
            None => (Err(Refusal::OutOfRange), 7),
            Some(_) => {
                let from = expected.states[walker as usize];
                let step = himm::step(&book.words, from, command);
                let is_inside = |state: u32| inside.contains(&state);
                match step.map(|to| (is_inside(from), is_inside(to.state))) {
                    Err(_) => (step, 5),
                    Ok((false, true)) if full => (Err(Refusal::NodeFull), 6),
                    Ok((false, false)) => (step, 0),
                    Ok((false, true)) => (step, 1),
                    Ok((true, false)) => (step, 2),
                    Ok((true, true)) => (step, 3 + full as usize),
                }
            }
        };
        assert_eq!(answer, course.0, "walker {walker} by {command} of {expected:?}");
        if let Ok(to) = answer {
            expected.states[walker as usize] = to.state;
        }
        assert_eq!(*walkers, expected, "walker {walker} by {command}");
        assert!(count(walkers, inside) <= walkers.limit as usize, "too many inside after walker {walker} by {command}: {walkers:?}");
        self.0[course.1] += 1;
    }

    /// Walkers at random states around a node, opened with a random limit, or with the number inside where that is more, and then a long list of
    /// commands on records that nothing else changes.
    fn wander(&mut self, book: &Book, node: u32, random: &mut Random, commands: usize) {
        let inside = book.inside(node);
        let limit = random.pick(&[0, 1, 1, 2, 2, 3, 4, 6, 8]);
        let number = random.pick(&[0, 1, 2, 3, 5, WALKERS, WALKERS, WALKERS]);
        let mut walkers = Walkers::at(node, limit, &around(book, node, number, random));
        let now = count(&walkers, &inside) as u32;
        assert_eq!(book.open(&walkers), if now <= limit { Ok(()) } else { Err(Refusal::TooManyWalkers) }, "{walkers:?}");
        walkers.limit = limit.max(now);
        assert_eq!(book.open(&walkers), Ok(()));
        for _ in 0..commands {
            let walker = if random.chance(2) { random.below(10) } else { random.below(number.max(1)) };
            let command = if random.chance(2) { random.below(18) } else { random.below(COMMANDS) };
            self.judge(book, &inside, &mut walkers, walker as u32, command as u32);
        }
        assert_eq!(book.open(&walkers), Ok(()));
    }
}

#[test]
fn random_books() {
    let (mut courses, mut held, mut left) = (Courses::default(), 0, 0);
    for seed in 0..250 {
        let mut random = Random::new(81_000 + seed);
        let shape = Shape { commands: COMMANDS, ..Shape::random(&mut random) };
        let book = Book::random(&mut random, &shape);
        held += book.tree().nodes_on_hold().len();
        left += book.tree().machines_with_leave().len();
        let (states, refined) = (book.states(), book.refined());
        courses.wander(&book, random.pick(&states), &mut random, 300);
        courses.wander(&book, random.pick(if refined.is_empty() { &states } else { &refined }), &mut random, 600);
    }
    assert!(courses.0.iter().all(|&count| count > 300), "{courses:?}");
    assert!(held > 200 && left > 200, "{held} held nodes, {left} machines that cost something to leave");
}

/// Every node of small books, and of chains of eight levels, as the one that is limited.
#[test]
fn every_node() {
    let mut courses = Courses::default();
    for seed in 0..24 {
        let mut random = Random::new(82_000 + seed);
        let growth = random.pick(&[Growth::Any, Growth::Wide, Growth::EvenChain]);
        let machines = if growth == Growth::EvenChain { LEVELS } else { 2 + random.below(6) };
        let (filled, loops, holds) = (random.pick(&[10, 30, 60]), random.pick(&[0, 20]), random.pick(&[0, 10, 30]));
        let book = Book::random(&mut random, &Shape { growth, machines, nodes: 24, filled, loops, holds, leaves: 50, ..Shape::full() });
        book.nodes(|_| true).into_iter().for_each(|node| courses.wander(&book, node, &mut random, 300));
    }
    assert!(courses.0.iter().all(|&count| count > 300), "{courses:?}");
}

/// The largest books, with holds and costs of leaving and without, and nodes of the root, where most walkers come by.
#[test]
fn full_books() {
    let mut courses = Courses::default();
    for (seed, holds) in [(0, 0), (1, 10), (2, 40)] {
        let mut random = Random::new(83_000 + seed);
        let book = Book::random(&mut random, &Shape { filled: 60, holds, leaves: 2 * holds, ..Shape::full() });
        let root = book.tree().root;
        let nodes: Vec<u32> = book.tree().nodes_of(root).into_iter().map(|n| n as u32).collect();
        nodes.into_iter().chain(book.refined().into_iter().take(20)).for_each(|node| courses.wander(&book, node, &mut random, 200));
    }
    assert!(courses.0[..7].iter().all(|&count| count > 20), "{courses:?}");
}

// Damaged books and torn lists.

/// Walkers at states that a book has before it is damaged, with a limit that they keep there, one of them and a command.
fn on_a_good_book(book: &Book, random: &mut Random) -> (Walkers, u32, u32) {
    let (refined, nodes) = (book.refined(), book.nodes(|_| true));
    let some = if refined.is_empty() || random.chance(40) { nodes } else { refined };
    let (node, number) = (random.pick(&some), 1 + random.below(WALKERS));
    let mut walkers = Walkers::at(node, 0, &around(book, node, number, random));
    walkers.limit = (count(&walkers, &book.inside(node)) + random.chance(30) as usize).min(WALKERS) as u32;
    (walkers, random.below(number) as u32, random.below(COMMANDS) as u32)
}

/// Both calls on a book that may be damaged; gives the command's refusal or 0.
fn both_calls(words: &[u32], (walkers, walker, command): &(Walkers, u32, u32)) -> u32 {
    walkers.both(words, &read_book(words), *walker, *command)
}

/// Every word of a small book, changed in several ways.
#[test]
fn torn_books_word_by_word() {
    let mut random = Random::new(84_000);
    let good = Book::random(&mut random, &Shape { machines: 5, nodes: 14, filled: 60, holds: 20, leaves: 50, ..Shape::full() });
    let mut answers = vec![];
    for at in 0..BOOK_WORDS {
        for word in words(&mut random, good.words[at]) {
            let mut torn = good.words.clone();
            torn[at] = word;
            answers.push(both_calls(&torn, &on_a_good_book(&good, &mut random)));
        }
    }
    let [done, torn, stops, full] = counts(&answers, [0, 2, 17, 22]);
    assert!(done > 200 && torn > 20_000 && stops > 50 && full > 20, "{done} done, {torn} torn, {stops} stops, {full} full");
}

/// Several fields of random books copied from one place to another.
#[test]
fn torn_books_by_copying() {
    let mut answers = vec![];
    for seed in 0..2500 {
        let mut random = Random::new(85_000 + seed);
        let shape = Shape { commands: COMMANDS, nodes: 20, machines: 1 + random.below(8), ..Shape::random(&mut random) };
        let good = Book::random(&mut random, &shape);
        let (mut words, walkers) = (good.words.clone(), on_a_good_book(&good, &mut random));
        (0..1 + random.below(3)).for_each(|_| copy_a_field(&mut random, &mut words));
        answers.push(both_calls(&words, &walkers));
    }
    let [done, torn, full] = counts(&answers, [0, 2, 22]);
    assert!(done > 100 && torn > 300 && full > 10, "{done} done, {torn} torn, {full} full");
}

/// Machines that hold each other and never come to the root, a ninth level, and books of random words.
#[test]
fn rings_and_noise() {
    let (good, mut random) = (Book::mast(""), Random::new(86_000));
    for length in 1..20 {
        let mut ring = good.words.clone();
        (0..length).for_each(|k| put_over(&mut ring, 30 + k, 30 + (k + 1) % length));
        assert_eq!(both_calls(&ring, &(Walkers::at(30, 1, &[0, 10]), 0, 0)), 2);
        assert_eq!(both_calls(&ring, &on_a_good_book(&good, &mut random)), 2);
    }
    let mut nine = Holding::loaded(&(0..7).flat_map(|k| [0x12, 0, k, k + 1, 0, k + 1]).collect::<Vec<u8>>()).book;
    nine[node_at(7) + 1] = 8;
    nine[machine_at(8)..][..2].copy_from_slice(&[7, 8]);
    nine[node_at(8)] = 8;
    assert_eq!(both_calls(&nine, &(Walkers::at(0, 1, &[8]), 0, 0)), 2);
    for limit in [1, 2, 64, 256, 65536, usize::MAX] {
        for _ in 0..20 {
            let noise: Vec<u32> = (0..BOOK_WORDS).map(|_| random.below(limit) as u32).collect();
            assert_eq!(both_calls(&noise, &on_a_good_book(&good, &mut random)), 2);
        }
    }
}

/// Books of other lengths: 1, whatever their words.
#[test]
fn wrong_lengths() {
    let mut random = Random::new(87_000);
    for good in [Book::mast(""), Book::of(Holding::ladder().book)] {
        for length in [0, 1, BOOK_WORDS - NODES, BOOK_WORDS - 1, BOOK_WORDS + 1, 10_000] {
            let mut words = good.words.clone();
            words.resize(length, 65535);
            assert_eq!(both_calls(&words, &on_a_good_book(&good, &mut random)), 1);
        }
    }
}

/// Lists in which some walkers, or the node, are out of range, not in use or, of the walkers, refined: 6, 7, 14 in this order wherever they
/// stand, also where too many are inside, and also for a walker that stands well.
#[test]
fn torn_lists() {
    let mut answers = vec![];
    for seed in 0..150 {
        let mut random = Random::new(88_000 + seed);
        let shape = Shape { machines: 2 + random.below(6), nodes: 30, ..Shape::random(&mut random) };
        let book = Book::random(&mut random, &shape);
        let out_of_range = [256, 257, 511, 65535, 65536, 65536 + random.pick(&book.states()), 0x8000_0000, u32::MAX];
        let bad = [(6, out_of_range.to_vec()), (7, book.unused()), (14, book.refined())];
        for _ in 0..60 {
            let (mut walkers, walker, command) = on_a_good_book(&book, &mut random);
            walkers.limit = if random.chance(50) { 0 } else { walkers.limit };
            let mut expected = u32::MAX;
            for at in random.shuffled(walkers.states.len()).into_iter().take(1 + random.below(3)) {
                let (number, words) = &bad[random.below(3)];
                walkers.states[at] = random.pick(words);
                expected = expected.min(*number);
            }
            if random.chance(20) {
                let (number, words) = &bad[random.below(2)];
                walkers.node = random.pick(words);
                expected = expected.min(*number);
            }
            assert_eq!(book.refuse_both(&walkers, walker, command).map(Refusal::number), Some(expected), "{walkers:?}");
            answers.push(expected);
        }
    }
    let all = counts(&answers, [6, 7, 14]);
    assert!(all.iter().all(|&count| count > 500), "{all:?}");
}

/// Both calls in a thread with as much stack as the header asks for.
#[test]
fn a_small_stack() {
    let words = Holding::ladder().book;
    let call = move || {
        let mut walkers = [94, 1, 1, 1, 1, 1, 1, 1];
        himm::walkers(&words, 0, 2, &walkers)?;
        himm::walk(&words, 0, 2, &mut walkers, 7, 0).map(|to| (to, walkers))
    };
    let thread = std::thread::Builder::new().stack_size(128 * 1024).spawn(call).expect("a thread");
    let to = Moved { state: 4, cost: 1, node: 1 };
    assert_eq!(thread.join().expect("an end"), Ok((to, [94, 1, 1, 1, 1, 1, 1, 4])));
}
