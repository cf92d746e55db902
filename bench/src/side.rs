//! Books of one kind in one library, what each round needs of them, and the work of a round. The same seeds give the same work in every
//! library.

use crate::holding::{then_refresh, Holding, PLAN_BYTES};
use crate::library::{Library, Moved};
use crate::timing::{timed, Times};
use himm_model::flat::Flat;
use himm_model::import::Import;
use himm_model::random::{self, Growth, Random, Shape};
use himm_model::{
    book, layout, table, walk, BLANK, COMMANDS, LARGEST_DEPTH, LIST_COMMANDS, MACHINES, NODES, STREAM_BYTES, TABLE_WORDS, WALKERS,
};

/// How often each piece of work is timed.
pub const ROUNDS: usize = 400;

/// How many books of a kind are taken in turn; there is one ladder.
pub const BOOKS: usize = 32;

/// How long the short lists are that are chosen from.
const LIST: usize = 64;

/// How many timings are imported in a round, and the bytes that each may need.
pub const TIMINGS: usize = 1000;
pub const IMPORT_BYTES: usize = 8;

/// The words of a node's record in a book by node.
const RECORD: usize = 18;

/// The longest dead time of a probe, in seconds.
const DEAD_TIME: f32 = 0.25;

/// Books, taken in turn round by round, so that no side meets the same book twice in a row where there is more than one; beside them the
/// same with every machine stale, a fresh one, and the words of each by command. Streams and long lists are by book, the other inputs by
/// round.
pub struct Side {
    pub books: Vec<Holding>,
    by_command: Vec<Vec<u32>>,
    stale: Vec<Holding>,
    fresh: Holding,
    pub streams: Vec<Vec<u8>>,
    pub pairs: Vec<(u32, u32)>,
    pub edits: Vec<Vec<u8>>,
    pub places: Vec<(u32, u32)>,
    pub walks: Vec<Walk>,
    lists: Vec<[Vec<u8>; 2]>,
    long: Vec<Choice>,
}

/// Two long lists of commands from one state to another.
pub struct Choice {
    pub pair: (u32, u32),
    pub lists: [Vec<u8>; 2],
}

/// A command for one of as many walkers as there may be: the node that is limited and its limit, the states, the walker and what it is told.
pub struct Walk {
    pub limited: (u32, u32),
    pub states: [u32; WALKERS],
    pub walker: u32,
    pub command: u32,
}

/// The kinds of books that are measured.
pub fn kinds(library: &'static Library) -> Vec<(&'static str, Side)> {
    let wide = Shape { filled: 60, ..Shape::full() };
    let chain = Shape { growth: Growth::EvenChain, machines: 8, filled: 30, ..Shape::full() };
    let ladder = Side::of(vec![Holding::ladder(library)]);
    vec![("the ladder", ladder), ("random books", random_books(library, &wide)), ("chains of eight levels", random_books(library, &chain))]
}

/// Random books of a shape.
fn random_books(library: &'static Library, shape: &Shape) -> Side {
    Side::of((0..BOOKS).map(|seed| Holding::random(library, 40 + seed as u64, shape)).collect())
}

/// The random books again with about every tenth node held, start nodes left out; no library before version 3 has them.
pub fn held(library: &'static Library) -> Side {
    random_books(library, &Shape { filled: 60, holds: 10, ..Shape::full() })
}

/// The random books again with a cost of leaving for every machine but the root; no library before version 4 has them.
pub fn with_leaves(library: &'static Library) -> Side {
    random_books(library, &Shape { filled: 60, leaves: 100, ..Shape::full() })
}

/// Random books of which any two fit together: each has about half of the machines and of the nodes, and none at the lowest level.
pub fn half_full(library: &'static Library) -> Side {
    let shape = Shape { machines: MACHINES / 2 - 1, nodes: NODES / 2 - 1, filled: 60, ..Shape::full() };
    let books = (40..).map(|seed| Holding::random(library, seed, &shape)).filter(|holding| !holding.tree.is_deep());
    Side::of(books.take(BOOKS).collect())
}

impl Side {
    /// Some books, with what each round needs made before the clock runs.
    pub fn of(books: Vec<Holding>) -> Side {
        let in_turn = |round: usize| &books[round % books.len()];
        let pairs: Vec<_> = books.iter().map(|holding| holding.pairs(ROUNDS)).collect();
        let edits: Vec<_> = books.iter().map(|holding| holding.edits(ROUNDS, 5)).collect();
        Side {
            by_command: books.iter().map(|holding| layout::by_command(&book::encode(&holding.tree))).collect(),
            stale: books.iter().map(Holding::stale).collect(),
            fresh: Holding::fresh(books[0].library),
            streams: books.iter().map(Holding::stream).collect(),
            pairs: (0..ROUNDS).map(|round| pairs[round % pairs.len()][round]).collect(),
            edits: (0..ROUNDS).map(|round| edits[round % edits.len()][round].clone()).collect(),
            places: (0..ROUNDS).map(|round| place(in_turn(round), round)).collect(),
            walks: (0..ROUNDS).map(|round| Walk::on(in_turn(round), round)).collect(),
            lists: (0..ROUNDS).map(|round| [2 * round, 2 * round + 1].map(list)).collect(),
            long: books.iter().map(Choice::on).collect(),
            books,
        }
    }

    /// The first of the books alone: one book again and again, which the processor learns.
    pub fn first(&self) -> Side {
        Side::of(self.books[..1].to_vec())
    }

    /// The library that the books are in.
    pub fn library(&self) -> &'static Library {
        self.fresh.library
    }

    /// The book of a round.
    pub fn at(&self, round: usize) -> &Holding {
        &self.books[round % self.books.len()]
    }

    /// The two books of a round that needs two; the next round has two others.
    pub fn two(&self, round: usize) -> [&Holding; 2] {
        [self.at(2 * round), self.at(2 * round + 1)]
    }

    /// The ladder opened; the lists are filled outside the clock.
    pub fn open(&self, times: &mut Times) -> Vec<u32> {
        let (mut book, mut sheet) = (self.fresh.book.clone(), self.fresh.sheet.clone());
        timed(times, || self.library().open_ladder(&mut book, &mut sheet)).expect("right lengths");
        book
    }

    /// The same from a table, the ladder's rows.
    pub fn open_table(&self, times: &mut Times) -> Vec<u32> {
        let (rows, mut book, mut sheet) = (table::ladder(LARGEST_DEPTH), self.fresh.book.clone(), self.fresh.sheet.clone());
        timed(times, || self.library().open_table(&rows, &mut book, &mut sheet)).expect("a good table");
        book
    }

    /// These rows by the generator; the output is filled outside the clock.
    pub fn ladder(&self, times: &mut Times) -> Vec<u32> {
        let mut out = vec![u32::MAX; TABLE_WORDS];
        let length = timed(times, || self.library().ladder(LARGEST_DEPTH, &mut out)).expect("room enough");
        out.truncate(length);
        out
    }

    /// A plan's cost.
    pub fn plan(&self, round: usize, times: &mut Times) -> Option<u32> {
        self.at(round).plan(self.pairs[round], times)
    }

    /// One edit, a refresh of what it left stale, and a plan, whose cost it gives.
    pub fn edit_refresh_and_plan(&self, round: usize, times: &mut Times) -> Option<u32> {
        self.at(round).load_and_plan(&then_refresh(&self.edits[round]), self.pairs[round], times)
    }

    /// The state that a command leads to, its cost and the node.
    pub fn step(&self, round: usize, times: &mut Times) -> Option<Moved> {
        let (state, command) = self.places[round];
        timed(times, || self.library().step(&self.at(round).book, state, command)).ok()
    }

    /// The words of a round's book by command.
    pub fn by_command(&self, round: usize) -> &[u32] {
        &self.by_command[round % self.by_command.len()]
    }

    /// The book turned by command; the other list is filled outside the clock.
    pub fn turn_by_command(&self, round: usize, times: &mut Times) -> Vec<u32> {
        let mut out = self.fresh.book.clone();
        timed(times, || self.library().by_command(&self.at(round).book, &mut out)).expect("right lengths");
        out
    }

    /// The book turned by node, likewise.
    pub fn turn_by_node(&self, round: usize, times: &mut Times) -> Vec<u32> {
        let mut out = self.fresh.book.clone();
        timed(times, || self.library().by_node(self.by_command(round), &mut out)).expect("right lengths");
        out
    }

    /// The round's step, of the book by command.
    pub fn step_by_command(&self, round: usize, times: &mut Times) -> Option<Moved> {
        let (state, command) = self.places[round];
        timed(times, || self.library().step_by_command(self.by_command(round), state, command)).ok()
    }

    /// The cost of the round's plan, over the book by command.
    pub fn plan_by_command(&self, round: usize, times: &mut Times) -> Option<u32> {
        let (sheet, mut buffer) = (&self.at(round).sheet, [0; PLAN_BYTES]);
        timed(times, || self.library().plan_by_command(self.by_command(round), sheet, self.pairs[round], &mut buffer)).ok()
    }

    /// One command looked at over all nodes, in as many books as there are of a kind, by node: how many transitions there are, and the sum
    /// of their costs.
    pub fn scan_by_node(&self, round: usize, times: &mut Times) -> (u32, u32) {
        let first = book::node_at(0) + 2 + self.places[round].1 as usize;
        timed(times, || sum((0..BOOKS).map(|k| seen(self.at(round + k).book[first..].iter().step_by(RECORD).take(NODES)))))
    }

    /// The same, the books by command.
    pub fn scan_by_command(&self, round: usize, times: &mut Times) -> (u32, u32) {
        let first = NODES * self.places[round].1 as usize;
        timed(times, || sum((0..BOOKS).map(|k| seen(self.by_command(round + k)[first..].iter().take(NODES)))))
    }

    /// The walkers of a round opened; gives 0, since they keep their limit.
    pub fn open_walkers(&self, round: usize, times: &mut Times) -> u32 {
        let Walk { limited, states, .. } = &self.walks[round];
        timed(times, || self.library().walkers(&self.at(round).book, *limited, states)).err().unwrap_or(0)
    }

    /// The command for one of these walkers, the one at the place of the round, and the states after it; they are copied outside the clock.
    pub fn walk(&self, round: usize, times: &mut Times) -> (Result<Moved, u32>, [u32; WALKERS]) {
        let Walk { limited, mut states, walker, command } = self.walks[round];
        let given = timed(times, || self.library().walk(&self.at(round).book, limited, &mut states, walker, command));
        (given.map(|(cost, node)| Moved { state: states[walker as usize], cost, node: Some(node) }), states)
    }

    /// The root's exit cost for the command of the round.
    pub fn exit(&self, round: usize, times: &mut Times) -> Option<u32> {
        let holding = self.at(round);
        timed(times, || self.library().exit(&holding.book, &holding.sheet, holding.tree.root as u32, self.places[round].1)).ok()
    }

    /// The book's own stream into a fresh holding.
    pub fn load(&self, round: usize, times: &mut Times) -> Vec<u32> {
        self.fresh.load(&self.streams[round % self.streams.len()], times)
    }

    /// One edit, and a refresh of what it left stale.
    pub fn edit_and_refresh(&self, round: usize, times: &mut Times) -> Vec<u32> {
        self.at(round).load(&then_refresh(&self.edits[round]), times)
    }

    /// The same edit, and a refresh of everything.
    pub fn edit_and_refresh_all(&self, round: usize, times: &mut Times) -> Vec<u32> {
        self.stale[round % self.stale.len()].load(&then_refresh(&self.edits[round]), times)
    }

    /// An empty stream: the checks of book and sheet, as a load makes them.
    pub fn load_nothing(&self, round: usize, times: &mut Times) -> Vec<u32> {
        self.at(round).load(&[], times)
    }

    /// The length of the book's stream.
    pub fn write(&self, round: usize, times: &mut Times) -> usize {
        self.at(round).write(times)
    }

    /// The better of two random lists.
    pub fn choose(&self, round: usize, times: &mut Times) -> Option<(u32, u32)> {
        let [first, second] = &self.lists[round];
        timed(times, || self.library().choose(&self.at(round).book, self.pairs[round], first, second)).ok()
    }

    /// The long lists of a round.
    pub fn long(&self, round: usize) -> &Choice {
        &self.long[round % self.long.len()]
    }

    /// The better of two long lists.
    pub fn choose_long(&self, round: usize, times: &mut Times) -> Option<(u32, u32)> {
        let Choice { pair, lists: [first, second] } = self.long(round);
        timed(times, || self.library().choose(&self.at(round).book, *pair, first, second)).ok()
    }

    /// Two books merged; the lists are filled outside the clock.
    pub fn merge(&self, round: usize, times: &mut Times) -> Vec<u32> {
        let [first, second] = self.two(round);
        let (mut book, mut sheet) = (self.fresh.book.clone(), self.fresh.sheet.clone());
        timed(times, || self.library().merge(&first.book, &second.book, &mut book, &mut sheet)).expect("two books that fit together");
        book
    }

    /// The same two books written, and each stream loaded into a fresh holding of its own; gives the words of both books.
    pub fn write_and_load_both(&self, round: usize, times: &mut Times) -> [Vec<u32>; 2] {
        let (mut holdings, mut out) = ([self.fresh.clone(), self.fresh.clone()], vec![u8::MAX; STREAM_BYTES]);
        timed(times, || {
            for (from, to) in self.two(round).into_iter().zip(&mut holdings) {
                let length = self.library().write(&from.book, &mut out).expect("room enough");
                self.library().load(&mut to.book, &mut to.sheet, &out[..length]).expect("a good stream");
            }
        });
        holdings.map(|holding| holding.book)
    }

    /// Timings imported one behind the other into a stream, whose bytes it gives; refused ones are left out. The output is filled outside
    /// the clock.
    pub fn import(&self, timings: &[Import], times: &mut Times) -> Vec<u8> {
        let (mut out, mut length) = (vec![u8::MAX; IMPORT_BYTES * timings.len()], 0);
        timed(times, || timings.iter().for_each(|lent| length += self.library().import(lent, &mut out[length..]).unwrap_or(0)));
        out.truncate(length);
        out
    }
}

/// The timings of a round as probes log them: seconds of every size up to the largest cost, every tenth waited for without an end.
pub fn logged(round: usize) -> Vec<Import> {
    timings(round, |random| {
        let dead_time = random.below(1 << 20) as f32 / (1 << 20) as f32 * DEAD_TIME;
        let seconds = (random.below(65_000 << 15) >> random.below(16)) as f32 / 32768.0 + dead_time;
        (seconds.to_bits(), dead_time.to_bits())
    })
}

/// Such timings whose floats are hard: subnormal, halfway, no numbers; some of them are refused.
pub fn hard(round: usize) -> Vec<Import> {
    timings(round, random::timing)
}

/// Timings at random places, with the bits of seconds and dead time made by a function.
fn timings(round: usize, floats: fn(&mut Random) -> (u32, u32)) -> Vec<Import> {
    let mut random = Random::new(round as u64);
    let mut one = || {
        let [node, target] = [0, 1].map(|_| random.below(NODES) as u32);
        let (command, kind) = (random.below(COMMANDS) as u32, random.chance(10) as u32);
        let (seconds, dead_time) = floats(&mut random);
        Import { node, command, target, kind, seconds, dead_time }
    };
    (0..TIMINGS).map(|_| one()).collect()
}

impl Choice {
    /// Two lists between the first pair of states that has a way and is not one and the same state, each nearly as long as Choose looks at.
    fn on(holding: &Holding) -> Choice {
        let (flat, mut random) = (Flat::of(&book::encode(&holding.tree)), Random::new(6));
        let fits = |&(from, to): &(u32, u32)| from != to && flat.search(from as usize, to as usize).is_some();
        let pair = holding.pairs(ROUNDS).into_iter().find(fits).expect("a way");
        let moves = moves_before(&flat, pair.1 as usize);
        let lists = [0, 1].map(|_| long_list(&flat, &moves, pair, &mut random));
        assert!(lists.iter().all(|list| list.len() + PLAN_BYTES >= LIST_COMMANDS), "a list that is cut short");
        Choice { pair, lists }
    }
}

impl Walk {
    /// The walker of the place of a round, and the others at random states; as many may be inside some node as are there, or one more.
    fn on(holding: &Holding, round: usize) -> Walk {
        let (mut random, all, (state, command)) = (Random::new(round as u64), holding.tree.states(), place(holding, round));
        let (mut states, walker) = ([0; WALKERS].map(|_| random.pick(&all) as u32), random.below(WALKERS));
        states[walker] = state;
        let nodes: Vec<usize> = (0..NODES).filter(|&n| holding.tree.nodes[n].is_some()).collect();
        let node = random.pick(&nodes);
        let limit = (walk::inside(&holding.tree, node, &states) + random.below(2)).min(WALKERS);
        Walk { limited: (node as u32, limit as u32), states, walker: walker as u32, command }
    }
}

/// For each state the commands that lead to a state other than the last one, with a way to it, and those states.
fn moves_before(flat: &Flat, last: usize) -> Vec<Vec<(u8, usize)>> {
    let fits: Vec<bool> = (0..NODES).map(|state| state != last && flat.search(state, last).is_some()).collect();
    let on = |state: usize, x: usize| flat.step(state, x).filter(|&(next, _)| fits[next]).map(|(next, _)| (x as u8, next));
    (0..NODES).map(|state| (0..COMMANDS).filter_map(|x| on(state, x)).collect()).collect()
}

/// A list that wanders by these moves, and at its end takes the cheapest way; it does so at once where no move is left.
fn long_list(flat: &Flat, moves: &[Vec<(u8, usize)>], (from, to): (u32, u32), random: &mut Random) -> Vec<u8> {
    let (mut list, mut state) = (vec![], from as usize);
    while list.len() + PLAN_BYTES < LIST_COMMANDS && !moves[state].is_empty() {
        let (command, next) = random.pick(&moves[state]);
        list.push(command);
        state = next;
    }
    list.extend(flat.search(state, to as usize).expect("a way").commands);
    list
}

/// A state and a command at random.
fn place(holding: &Holding, round: usize) -> (u32, u32) {
    let mut random = Random::new(round as u64);
    (random.pick(&holding.tree.states()) as u32, random.below(COMMANDS) as u32)
}

/// How many transitions some words are, and the sum of their costs.
fn seen<'a>(words: impl Iterator<Item = &'a u32>) -> (u32, u32) {
    sum(words.map(|&word| if word == BLANK { (0, 0) } else { (1, word & 0xffff) }))
}

/// The sums of pairs.
fn sum(pairs: impl Iterator<Item = (u32, u32)>) -> (u32, u32) {
    pairs.fold((0, 0), |(a, b), (c, d)| (a + c, b + d))
}

/// A random list of commands.
fn list(seed: usize) -> Vec<u8> {
    let mut random = Random::new(seed as u64);
    (0..LIST).map(|_| random.below(COMMANDS) as u8).collect()
}
