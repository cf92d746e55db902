//! Books by command: where each word stands, turning there and back, lists of every length; openings, seasons and merges of books that stay
//! by command, damage done to them, and books in the other layout. In all other tests too each call is made in both layouts (`common`).

mod common;

use common::damage::{each_call, refused_by_each_call, words};
use common::layouts::{laid, LAYOUTS};
use common::walkers::Walkers;
use common::{chain_of_pairs, counts, hex, mast, nodes_to_try, Holding, MAST};
use himm::{raw, Layout, Moved, Refusal};
use himm_model::random::{edit, table, Random, Shape};
use himm_model::sheet::{is_stale, is_true, stale};
use himm_model::tree::Tree;
use himm_model::{book, calls, layout, random, BLANK, BOOK_WORDS, COMMANDS, MACHINES, NODES, SHEET_WORDS, TABLE_WORDS};

/// What a list holds before a call, and how many words stand behind its end, which no call may touch.
const UNTOUCHED: u32 = 0xdead_beef;
const BEHIND: usize = 16;

/// Lengths of lists that are no book's, those among them where a part of a layout ends.
const WRONG: [usize; 12] = [0, 1, 129, 256, 4096, 4225, 4737, 4993, BOOK_WORDS - 1, BOOK_WORDS + 1, 2 * BOOK_WORDS, 10_000];

// Turning.

/// For each place of a book by command the place of its word by node, from document 02's sentence: the places sorted by the command whose
/// transition stands there, all others behind, and else in their old order.
fn places() -> Vec<usize> {
    let command = |place: usize| match place {
        129..=4736 if (place - 129) % 18 >= 2 => (place - 129) % 18 - 2,
        _ => COMMANDS,
    };
    let mut places: Vec<usize> = (0..BOOK_WORDS).collect();
    places.sort_by_key(|&place| command(place));
    places
}

/// A turn into a list of so many words, by the call for C and by the safe one: both give what the model gives, leave the list that is read
/// and what stands behind the other's end, and write nothing where they refuse.
fn turn(into: Layout, lent: &[u32], room: usize) -> Result<Vec<u32>, u32> {
    let (call, safe, model): (_, fn(&[u32], &mut [u32]) -> Result<(), Refusal>, fn(&[u32]) -> Vec<u32>) = match into {
        Layout::ByCommand => (raw::himm_by_command as unsafe extern "C" fn(_, _, _, _) -> _, himm::by_command, layout::by_command),
        Layout::ByNode => (raw::himm_by_node as _, himm::by_node, layout::by_node),
    };
    let (expected, before) = (calls::turn(model, lent, room), lent.to_vec());
    let (mut out, mut again) = (vec![UNTOUCHED; room + BEHIND], vec![UNTOUCHED; room]);
    let number = unsafe { call(lent.as_ptr(), lent.len(), out.as_mut_ptr(), room) };
    let answer = safe(lent, &mut again).map_err(Refusal::number);
    let what = format!("{} words into room for {room}, {into:?}", lent.len());
    assert_eq!((number, answer), (expected.as_ref().err().copied().unwrap_or(0), expected.as_ref().map(|_| ()).map_err(|&k| k)), "{what}");
    let mut whole = expected.clone().unwrap_or(vec![UNTOUCHED; room]);
    assert!(again == whole, "{what}: other words by the safe call");
    whole.extend([UNTOUCHED; BEHIND]);
    assert!(out == whole && lent == before, "{what}: other words");
    expected
}

/// A turn of a list of the right length.
fn turned(into: Layout, lent: &[u32]) -> Vec<u32> {
    turn(into, lent, BOOK_WORDS).expect("right lengths")
}

/// Lists of random words under several limits.
fn noise(random: &mut Random, lists: usize) -> Vec<Vec<u32>> {
    let limits = [2, 64, 256, 65536, usize::MAX].into_iter().flat_map(|limit| vec![limit; lists]);
    limits.map(|limit| (0..BOOK_WORDS).map(|_| random.below(limit) as u32).collect()).collect()
}

/// The header's sentences: a node's transitions, the root and the machines, the nodes' other words, holds and costs of leaving.
#[test]
fn places_written_out() {
    let places = places();
    for (n, c) in (0..NODES).flat_map(|n| (0..COMMANDS).map(move |c| (n, c))) {
        assert_eq!(places[256 * c + n], 131 + 18 * n + c, "node {n}, command {c}");
    }
    assert!((0..129).all(|k| places[4096 + k] == k));
    assert!((0..NODES).all(|n| (places[4225 + 2 * n], places[4226 + 2 * n]) == (129 + 18 * n, 130 + 18 * n)));
    assert!((4737..BOOK_WORDS).all(|k| places[k] == k));
}

/// Words that are all different show where each of them goes, both ways.
#[test]
fn every_word_in_its_place() {
    let (places, numbers) = (places(), (0..BOOK_WORDS as u32).collect::<Vec<_>>());
    let (there, back) = (turned(Layout::ByCommand, &numbers), turned(Layout::ByNode, &numbers));
    for (at, &place) in places.iter().enumerate() {
        assert_eq!((there[at], back[place]), (place as u32, at as u32), "word {at} by command, {place} by node");
    }
}

#[test]
fn random_words_there_and_back() {
    let (mut random, places) = (Random::new(90_000), places());
    for list in noise(&mut random, 40) {
        let (there, back) = (turned(Layout::ByCommand, &list), turned(Layout::ByNode, &list));
        assert!((0..BOOK_WORDS).all(|at| there[at] == list[places[at]] && back[places[at]] == list[at]));
        assert!(turned(Layout::ByNode, &there) == list && turned(Layout::ByCommand, &back) == list);
    }
}

/// Every length up to a little more than a book's, of either list and of both: 1, but where both are right.
#[test]
fn lengths_of_a_turn() {
    let list: Vec<u32> = noise(&mut Random::new(91_000), 1).concat()[..BOOK_WORDS + 20].to_vec();
    let mut answers = vec![];
    for into in LAYOUTS {
        for length in (0..BOOK_WORDS + 20).filter(|&length| length != BOOK_WORDS) {
            let pairs = [(length, BOOK_WORDS), (BOOK_WORDS, length), (length, length)];
            answers.extend(pairs.map(|(from, room)| turn(into, &list[..from], room).err().unwrap_or(0)));
        }
        answers.extend(WRONG.map(|room| turn(into, &vec![7; 10_000], room).err().unwrap_or(0)));
    }
    assert_eq!(counts(&answers, [1]), [answers.len()]);
}

// Books.

/// The words of the mast book by command: six transitions in the stretches of commands 0, 1 and 2, root 0, machines 0 and 1, five nodes.
#[test]
fn the_mast_book() {
    let (mut expected, transition) =
        ([&[BLANK; 4096][..], &[65535; 641], &[0; 320]].concat(), |target: u32, cost: u32| target * 65536 + cost);
    for (place, word) in [(0, transition(1, 5)), (2, transition(0, 7)), (257, transition(2, 3)), (266, transition(10, 1))] {
        expected[place] = word;
    }
    (expected[512], expected[522]) = (transition(2, 20), transition(11, 4));
    (expected[4096], expected[4098]) = (0, 0);
    (expected[4099], expected[4100]) = (1, 10);
    for (node, machine) in [(0, 0), (1, 0), (2, 0), (10, 1), (11, 1)] {
        expected[4225 + 2 * node] = machine;
    }
    expected[4228] = 1;
    let mut holding = Holding::untouched();
    Layout::ByCommand.open_fresh(&mut holding.book, &mut holding.sheet).expect("right lengths");
    let loaded = Layout::ByCommand.load(&mut holding.book, &mut holding.sheet, &[&hex(MAST)[..], &[himm::REFRESH]].concat());
    assert_eq!((loaded.bytes, loaded.commands, loaded.result), (71, 12, Ok(())));
    assert!(holding.book == expected && turned(Layout::ByNode, &holding.book) == mast("").book);
    assert_eq!(Layout::ByCommand.step(&holding.book, 11, 1), Ok(Moved { state: 2, cost: 3, node: 1 }));
    let mut buffer = [0; himm::PLAN_BYTES];
    let plan = Layout::ByCommand.plan(&holding.book, &holding.sheet, 0, 2, &mut buffer).expect("a way");
    assert_eq!((plan.cost, plan.commands), (12, &[0, 2, 1][..]));
    assert_eq!(Layout::ByCommand.write(&holding.book, &mut [0; 70]), Ok(&hex(MAST)[..]));
    assert_eq!(Layout::ByCommand.exit(&holding.book, &holding.sheet, 1, 1), Ok(4));
}

/// The two openings without a table, over words of any kind; of wrong lengths they are refused with 1 and leave every word.
#[test]
fn openings() {
    let words = |tree: &Tree| (book::encode(tree), stale(tree));
    let (single, ladder) = (words(&Tree::single(0, 0)), words(&Tree::ladder()));
    for mut holding in [Holding::untouched(), Holding::ladder(), mast("1A 000B 01"), chain_of_pairs()] {
        assert_eq!(holding.compare_written(Ok(single.clone()), Layout::open_fresh), 0);
        assert_eq!(holding.compare_written(Ok(ladder.clone()), Layout::open_ladder), 0);
    }
    let lengths = WRONG.map(|length| (length, SHEET_WORDS)).into_iter().chain(WRONG.map(|length| (BOOK_WORDS, length)));
    for (book, sheet) in lengths {
        let mut holding = Holding { book: vec![9; book], sheet: vec![9; sheet] };
        assert_eq!((holding.compare_written(Err(1), Layout::open_fresh), holding.compare_written(Err(1), Layout::open_ladder)), (1, 1));
    }
}

/// A holding whose book stays by command from one call to the next, beside the same by node.
struct Twins {
    node: Holding,
    command: Holding,
}

impl Twins {
    fn of(node: Holding) -> Twins {
        Twins { command: Holding { book: laid(Layout::ByCommand, &node.book), sheet: node.sheet.clone() }, node }
    }

    /// Loads a stream into both: the same answer and book, the same marks, and true sheets. Gives the refusal or 0.
    fn load(&mut self, stream: &[u8]) -> u32 {
        let expected = self.node.load(stream);
        let got = Layout::ByCommand.load(&mut self.command.book, &mut self.command.sheet, stream);
        let number = got.result.err().map_or(0, Refusal::number);
        assert_eq!((got.bytes, got.commands, number), (expected.bytes, expected.commands, expected.number));
        assert!(self.command.book == laid(Layout::ByCommand, &self.node.book), "another book by command");
        assert!((0..MACHINES).all(|m| is_stale(&self.command.sheet, m) == is_stale(&self.node.sheet, m)), "other marks");
        assert!(is_true(&self.node.tree(), &self.command.sheet), "a false sheet by command");
        number
    }

    /// Every safe call that only reads, on both, at some nodes, machines and commands.
    fn compare(&self, random: &mut Random) {
        let (n, c) = (&self.node, &self.command);
        let nodes = nodes_to_try(&n.tree(), random, 6);
        for (machine, command) in (0..=MACHINES as u32).map(|machine| (machine, random.below(COMMANDS + 1) as u32)) {
            let by_command = Layout::ByCommand.exit(&c.book, &c.sheet, machine, command);
            assert_eq!(by_command, himm::exit(&n.book, &n.sheet, machine, command), "exit {machine} {command}");
        }
        for (&from, command) in nodes.iter().flat_map(|from| (0..=COMMANDS as u32).map(move |command| (from, command))) {
            assert_eq!(Layout::ByCommand.step(&c.book, from, command), himm::step(&n.book, from, command), "step {from} {command}");
        }
        for (&from, &to) in nodes.iter().flat_map(|from| nodes.iter().map(move |to| (from, to))) {
            self.compare_lists(random, from, to);
        }
        let mut outs = [vec![0; himm::STREAM_BYTES], vec![0; himm::STREAM_BYTES]];
        let [one, other] = &mut outs;
        assert_eq!(Layout::ByCommand.write(&c.book, one), himm::write(&n.book, other));
    }

    /// A plan between two nodes, which leads there at the same cost, a choice between it and some commands, and walkers at the two nodes.
    fn compare_lists(&self, random: &mut Random, from: u32, to: u32) {
        let (n, c, mut buffers) = (&self.node, &self.command, [[0; himm::PLAN_BYTES]; 2]);
        let [one, other] = &mut buffers;
        let by_command = Layout::ByCommand.plan(&c.book, &c.sheet, from, to, one);
        let by_node = himm::plan(&n.book, &n.sheet, from, to, other);
        assert_eq!(by_command.map(|plan| plan.cost), by_node.map(|plan| plan.cost), "plan {from} {to}");
        let list: Vec<u8> = (0..20).map(|_| random.below(COMMANDS + 1) as u8).collect();
        let first = by_command.map_or(&list[..], |plan| plan.commands);
        let chosen = Layout::ByCommand.choose(&c.book, from, to, first, &list);
        assert_eq!(chosen, himm::choose(&n.book, from, to, first, &list), "choose {from} {to}");
        assert!(by_command.is_err() || chosen.is_ok(), "a plan that does not arrive, {from} {to}");
        let limit = random.below(4) as u32;
        Walkers::at(to, limit, &[from, from, to]).both(&n.book, &calls::read_book(&n.book), 1, random.below(COMMANDS + 1) as u32);
    }
}

/// Edits of a tree, as they come, some of them refused.
fn edits(random: &mut Random, tree: &Tree) -> Vec<u8> {
    let count = random.pick(&[0, 1, 3, 8]);
    random::bytes(&(0..count).map(|_| edit(random, tree)).collect::<Vec<_>>())
}

/// Lists of loads into books that stay by command, each load compared and all other calls at the end.
#[test]
fn seasons_by_command() {
    let mut answers = vec![];
    for seed in 0..60 {
        let mut random = Random::new(92_000 + seed);
        let shape = Shape::random(&mut random);
        let mut twins = Twins::of(match seed % 4 {
            0 => Holding::ladder(),
            1 => Holding::of_table(&table(&mut random, &Shape { machines: 9, nodes: 30, ..shape }, 60)),
            _ => Holding::random(&mut random, &shape),
        });
        for _ in 0..12 {
            let stream = edits(&mut random, &twins.node.tree());
            answers.push(twins.load(&stream));
        }
        twins.compare(&mut random);
        assert_eq!(twins.load(&[himm::REFRESH]), 0);
        twins.compare(&mut random);
    }
    let [done, range, unused, used] = counts(&answers, [0, 6, 7, 8]);
    assert!(done > 200 && range > 10 && unused > 10 && used > 5, "{done} done, {range} out of range, {unused} not in use, {used} in use");
}

/// Largest books, with holds and costs of leaving, and a full table.
#[test]
fn full_books() {
    for (seed, shape) in
        [Shape::full(), Shape::longest(), Shape { filled: 60, holds: 20, leaves: 50, ..Shape::full() }].into_iter().enumerate()
    {
        let mut random = Random::new(93_000 + seed as u64);
        let twins = Twins::of(Holding::random(&mut random, &shape));
        twins.compare(&mut random);
    }
    let rows = himm_model::table::ladder(6);
    assert_eq!((rows.len(), Holding::untouched().open_table(&rows)), (TABLE_WORDS, 0));
}

/// Two books by command merged, also one with itself in one list, and the merged one planned in and merged on.
#[test]
fn merges_by_command() {
    let mut answers = vec![];
    for seed in 0..60 {
        let mut random = Random::new(94_000 + seed);
        let shapes = [Shape::random(&mut random), Shape::random(&mut random)];
        let [first, second] = shapes.map(|shape| Holding::random(&mut random, &shape).book);
        let mut third = Holding::untouched();
        answers.push(third.merge(&first, &second));
        let (one, mut twice, mut by_node) = (laid(Layout::ByCommand, &first), Holding::untouched(), Holding::untouched());
        let answer = Layout::ByCommand.merge(&one, &one, &mut twice.book, &mut twice.sheet);
        assert_eq!(answer, himm::merge(&first, &first, &mut by_node.book, &mut by_node.sheet));
        assert!(
            twice.sheet == by_node.sheet
                && twice.book == if answer.is_ok() { laid(Layout::ByCommand, &by_node.book) } else { by_node.book }
        );
        if answers.last() == Some(&0) {
            let mut twins = Twins::of(third);
            assert_eq!(twins.load(&[himm::REFRESH]), 0);
            twins.compare(&mut random);
        }
    }
    let [done, deep] = counts(&answers, [0, 12]);
    assert!(done > 25 && deep > 3, "{done} done, {deep} too deep");
}

// Damage.

/// One of each call, with arguments at random; the words are by command.
fn compare_damaged(words: &[u32], sheet: &[u32], random: &mut Random) -> u32 {
    let holding = Holding { book: layout::by_node(words), sheet: sheet.to_vec() };
    let view = holding.view();
    let (from, to, command) = (random.below(NODES) as u32, random.below(NODES) as u32, random.below(COMMANDS) as u32);
    holding.compare_exit(&view, random.below(MACHINES) as u32, command);
    holding.compare_step(&view, from, command);
    holding.compare_plan(&view, from, to, himm::PLAN_BYTES);
    holding.compare_choice(&view, from, to, &[0, 1, 2], &[1]);
    holding.clone().load(&[himm::REFRESH]);
    Walkers::at(to, 1, &[from]).both(&holding.book, &view.book, 0, command);
    view.whole.err().unwrap_or(0)
}

/// Every place of a small book by command, with some other word.
#[test]
fn torn_books_word_by_word() {
    let mut random = Random::new(95_000);
    let shape = Shape { machines: 5, nodes: 14, filled: 60, holds: 20, leaves: 50, ..Shape::full() };
    let good = Holding::random(&mut random, &shape);
    let (list, mut answers) = (laid(Layout::ByCommand, &good.book), vec![]);
    for at in 0..BOOK_WORDS {
        let (others, mut torn) = (words(&mut random, list[at]), list.clone());
        torn[at] = random.pick(&others);
        answers.push(compare_damaged(&torn, &good.sheet, &mut random));
    }
    let [done, torn, lies] = counts(&answers, [0, 2, 3]);
    assert!(torn > 4_000 && lies > 20 && done > 0, "{torn} torn, {lies} false sheets, {done} done");
}

/// Stretches of random books by command moved: one command's words over another's, which leaves a book, or a stretch one node further.
#[test]
fn stretches_moved() {
    let mut answers = vec![];
    for seed in 0..400 {
        let mut random = Random::new(96_000 + seed);
        let shape = Shape::random(&mut random);
        let good = Holding::random(&mut random, &shape);
        let mut list = laid(Layout::ByCommand, &good.book);
        let (from, to) = (NODES * random.below(COMMANDS), NODES * random.below(COMMANDS));
        match random.below(4) {
            0 => list.copy_within(from..from + NODES, to),
            1 => list.copy_within(from..from + NODES, to + 1),
            2 => list.copy_within(4096..5056, 4097),
            _ => list.rotate_left(random.pick(&[1, 129, 256, 961])),
        }
        answers.push(compare_damaged(&list, &good.sheet, &mut random));
    }
    let [done, torn, lies] = counts(&answers, [0, 2, 3]);
    assert!(done > 10 && torn > 200 && lies > 20, "{done} done, {torn} torn, {lies} false sheets");
}

#[test]
fn noise_in_both_layouts() {
    let mut random = Random::new(97_000);
    for list in noise(&mut random, 10) {
        let sheet: Vec<u32> = (0..SHEET_WORDS).map(|_| random.below(65536) as u32).collect();
        assert_eq!(compare_damaged(&list, &sheet, &mut random), 2);
        assert_eq!(Holding { book: list.clone(), sheet }.merge(&list, &list), 2);
    }
}

/// Lists of other lengths than a book's: 1, before anything that their words say.
#[test]
fn short_and_long_lists() {
    let good = mast("");
    for length in WRONG {
        for mut list in [good.book.clone(), laid(Layout::ByCommand, &good.book)] {
            list.resize(length, 65535);
            let holding = Holding { book: list, sheet: good.sheet.clone() };
            let view = holding.view();
            assert_eq!((view.book.as_ref().err(), view.whole.as_ref().err()), (Some(&1), Some(&1)));
            each_call(&holding, &view);
            for (first, second) in [(&holding.book, &good.book), (&good.book, &holding.book), (&holding.book, &holding.book)] {
                assert_eq!(Holding::untouched().merge(first, second), 1);
            }
            assert_eq!(holding.clone().merge(&good.book, &good.book), 1);
        }
    }
}

/// A well-formed book in the other layout is torn, for every call. No list is well formed in both: the holders and starts of machines 6 to
/// 13 by command are node 221's transitions by node, so that one goes to node 0, and those of machines 15 to 22 are node 222's; both nodes
/// then belong to node 0's machine, and this number is by command the holder of machine 5 and of machine 14, which have each their own.
#[test]
fn books_in_the_other_layout() {
    let mut random = Random::new(98_000);
    let good = mast("").book;
    let mut books = vec![Holding::fresh(), Holding::ladder(), mast(""), chain_of_pairs(), Holding::random(&mut random, &Shape::longest())];
    books.extend((0..150).map(|_| {
        let shape = Shape::random(&mut random);
        Holding::random(&mut random, &shape)
    }));
    for holding in books {
        for list in [layout::by_command(&holding.book), layout::by_node(&holding.book)] {
            refused_by_each_call(&Holding { book: list, sheet: holding.sheet.clone() }, &good);
        }
    }
}
