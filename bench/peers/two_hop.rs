//! Answers queries on one finished run by 2-hop labels over its items: `two_hop EXPORT QUERIES ANSWERS TURNS`.
//!
//! EXPORT is what `wfprov export` writes, QUERIES is as `ask` reads it, and the answers are written to ANSWERS, a line each.
//! The labels are made by pruned landmark labelling: each item has a list of landmarks that it leads to and one of landmarks
//! that lead to it, and one item leads to another exactly if a landmark stands in the list of the first and in that of the
//! second. Items with many links come first as landmarks, and those with as many in an order drawn with a fixed seed.
//!
//! The queries are answered twice: by numbers of items, which are looked up beforehand, and with names, from the lines of
//! QUERIES to the lines of ANSWERS, by a table of the names. Each is done TURNS times. What is told, a line each: `items`,
//! `links`, `landmarks` of all lists, `bytes` of the lists and `names` of the table, the seconds of the processor for `labels`
//! and `table`, and the least of all turns for all queries by `number` and with `name`.

use std::collections::HashMap;
use std::fs::File;
use std::io::{BufRead, BufReader, BufWriter, Write};

const NONE: u32 = u32::MAX;
const BUFFER: usize = 1 << 18;

unsafe extern "C" {
    /// Microseconds of the processor that this process has used.
    fn clock() -> i64;
}

/// What a work gives, and the seconds of the processor that it took.
fn timed<T>(work: impl FnOnce() -> T) -> (T, f64) {
    // SAFETY: `clock` of the C library takes nothing and reads the clock of the process.
    let begun = unsafe { clock() };
    let result = work();
    (result, (unsafe { clock() } - begun) as f64 / 1e6)
}

/// Lists of numbers, one behind the other: list k is `of[ends[k]..ends[k + 1]]`.
struct Lists {
    ends: Vec<u32>,
    of: Vec<u32>,
}

impl Lists {
    /// For each number below `count` the second numbers of the pairs that it begins.
    fn of_pairs(count: usize, pairs: &[(u32, u32)]) -> Lists {
        let mut ends = vec![0; count + 1];
        for &(from, _) in pairs {
            ends[from as usize + 1] += 1;
        }
        for k in 0..count {
            ends[k + 1] += ends[k];
        }
        let mut next = ends.clone();
        let mut of = vec![0; pairs.len()];
        for &(from, to) in pairs {
            of[next[from as usize] as usize] = to;
            next[from as usize] += 1;
        }
        Lists { ends, of }
    }

    fn packed(lists: &[Vec<u32>]) -> Lists {
        let mut ends = vec![0];
        let mut of = Vec::with_capacity(lists.iter().map(Vec::len).sum());
        for list in lists {
            of.extend_from_slice(list);
            ends.push(of.len() as u32);
        }
        Lists { ends, of }
    }

    fn at(&self, k: u32) -> &[u32] {
        &self.of[self.ends[k as usize] as usize..self.ends[k as usize + 1] as usize]
    }

    fn bytes(&self) -> usize {
        4 * (self.ends.len() + self.of.len())
    }
}

/// The names of the items of a run in the order of EXPORT, and the pairs of items of which the second rests on the first directly.
struct Items {
    names: Vec<String>,
    links: Vec<(u32, u32)>,
}

/// The ports of EXPORT, numbered as they come, and what is linked.
#[derive(Default)]
struct Ports<'a> {
    numbers: HashMap<&'a str, u32>,
    items: Vec<(&'a str, u32)>,
    links: Vec<(u32, u32)>,
}

impl<'a> Ports<'a> {
    fn number(&mut self, name: &'a str) -> u32 {
        let next = self.numbers.len() as u32;
        *self.numbers.entry(name).or_insert(next)
    }

    fn read(text: &'a str) -> Ports<'a> {
        let mut ports = Ports::default();
        for line in text.lines() {
            let mut words = line.split(' ');
            match (words.next(), words.next(), words.next()) {
                (Some("item"), Some(name), None) => {
                    let port = ports.number(name);
                    ports.items.push((name, port));
                }
                (Some("link"), Some(from), Some(to)) => {
                    let link = (ports.number(from), ports.number(to));
                    ports.links.push(link);
                }
                (Some("leaf"), ..) => (),
                _ => panic!("a finished run has no line `{line}`"),
            }
        }
        ports
    }

    /// The items, and a link from each to those whose producing ports a search meets first behind the port that consumes it.
    ///
    /// An item has the name of the port that produces it, from which one link leads to the port that consumes it. Only an input
    /// of the run has the name of the port that consumes it; no link leads there. The first item is an input of the run, or an
    /// output where it has none: their instance is the first one of the run.
    fn joined(self) -> Items {
        let mut item_at = vec![NONE; self.numbers.len()];
        for (k, &(_, port)) in self.items.iter().enumerate() {
            item_at[port as usize] = k as u32;
        }
        let next = Lists::of_pairs(self.numbers.len(), &self.links);
        let instance = |name: &'a str| name.split_once('.').map(|(instance, _)| instance);
        let first = self.items.first().map(|&(name, _)| instance(name));
        let mut links = Vec::new();
        let mut met = vec![NONE; self.numbers.len()];
        let mut waiting = Vec::new();
        for (k, &(name, port)) in self.items.iter().enumerate() {
            if Some(instance(name)) == first {
                waiting.push(port);
            } else {
                waiting.extend_from_slice(next.at(port));
            }
            while let Some(port) = waiting.pop() {
                for &to in next.at(port) {
                    if std::mem::replace(&mut met[to as usize], k as u32) == k as u32 {
                        continue;
                    }
                    match item_at[to as usize] {
                        NONE => waiting.push(to),
                        item => links.push((k as u32, item)),
                    }
                }
            }
        }
        Items { names: self.items.iter().map(|&(name, _)| name.to_string()).collect(), links }
    }
}

/// Draws numbers by shifts and exclusive ors, from a fixed seed.
struct Draw(u64);

impl Draw {
    fn below(&mut self, most: usize) -> usize {
        self.0 ^= self.0 << 13;
        self.0 ^= self.0 >> 7;
        self.0 ^= self.0 << 17;
        (self.0 >> 16) as usize % most
    }
}

/// The landmarks of each item, as their places in the order in which they were taken, so that each list rises.
struct TwoHop {
    leads_to: Lists,
    led_from: Lists,
}

impl TwoHop {
    fn build(count: usize, links: &[(u32, u32)]) -> TwoHop {
        let back: Vec<(u32, u32)> = links.iter().map(|&(from, to)| (to, from)).collect();
        let ahead = Lists::of_pairs(count, links);
        let behind = Lists::of_pairs(count, &back);
        let mut leads_to = vec![Vec::new(); count];
        let mut led_from = vec![Vec::new(); count];
        let mut search = Search { met: vec![NONE; count], is_known: vec![false; count], queue: Vec::new() };
        for (place, &landmark) in landmarks(&ahead, &behind).iter().enumerate() {
            search.mark(&ahead, landmark, 2 * place as u32, &leads_to, &mut led_from);
            search.mark(&behind, landmark, 2 * place as u32 + 1, &led_from, &mut leads_to);
        }
        TwoHop { leads_to: Lists::packed(&leads_to), led_from: Lists::packed(&led_from) }
    }

    /// Whether a path of one link or more leads from the one item to the other. No path leads from an item to itself.
    fn leads(&self, from: u32, to: u32) -> bool {
        let (one, other) = (self.leads_to.at(from), self.led_from.at(to));
        let (mut i, mut j) = (0, 0);
        while i < one.len() && j < other.len() {
            if one[i] == other[j] {
                return from != to;
            }
            let is_less = one[i] < other[j];
            i += is_less as usize;
            j += !is_less as usize;
        }
        false
    }

    fn bytes(&self) -> usize {
        self.leads_to.bytes() + self.led_from.bytes()
    }
}

/// All items, those with the most pairs of a link in and a link out first, and otherwise in an order that is drawn.
fn landmarks(ahead: &Lists, behind: &Lists) -> Vec<u32> {
    let count = ahead.ends.len() - 1;
    let mut order: Vec<u32> = (0..count as u32).collect();
    let mut draw = Draw(0x9e37_79b9_7f4a_7c15);
    for k in (1..count).rev() {
        order.swap(k, draw.below(k + 1));
    }
    order.sort_by_key(|&item| std::cmp::Reverse((ahead.at(item).len() + 1) * (behind.at(item).len() + 1)));
    order
}

/// The search from one landmark in one direction, and its room.
struct Search {
    met: Vec<u32>,
    is_known: Vec<bool>,
    queue: Vec<u32>,
}

impl Search {
    /// Adds a landmark to the list of each item that is met, but not beyond one that an earlier landmark joins to it already.
    ///
    /// `turn` is two times the place of the landmark, and one more in the second direction. `own` has the lists of the direction
    /// from the landmark, and `theirs` the lists that grow.
    fn mark(&mut self, links: &Lists, landmark: u32, turn: u32, own: &[Vec<u32>], theirs: &mut [Vec<u32>]) {
        for &place in &own[landmark as usize] {
            self.is_known[place as usize] = true;
        }
        self.queue.clear();
        self.queue.push(landmark);
        self.met[landmark as usize] = turn;
        let mut at = 0;
        while at < self.queue.len() {
            let item = self.queue[at];
            at += 1;
            if theirs[item as usize].iter().any(|&place| self.is_known[place as usize]) {
                continue;
            }
            theirs[item as usize].push(turn / 2);
            for &next in links.at(item) {
                if std::mem::replace(&mut self.met[next as usize], turn) != turn {
                    self.queue.push(next);
                }
            }
        }
        for &place in &own[landmark as usize] {
            self.is_known[place as usize] = false;
        }
    }
}

/// A table of names, and the labels.
struct Named {
    numbers: HashMap<String, u32>,
    labels: TwoHop,
}

impl Named {
    /// Answers each line of QUERIES with a line of ANSWERS. What EXPORT does not have, the view hides.
    fn answer(&self, queries: &str, answers: &str) -> std::io::Result<()> {
        let mut queries = BufReader::with_capacity(BUFFER, File::open(queries)?);
        let mut answers = BufWriter::with_capacity(BUFFER, File::create(answers)?);
        let mut line = String::new();
        while queries.read_line(&mut line)? > 0 {
            let (first, second) = line.trim_end_matches('\n').split_once(' ').expect("two names");
            let answer = match (self.numbers.get(first), self.numbers.get(second)) {
                (Some(&from), Some(&to)) if self.labels.leads(from, to) => "yes\n",
                (Some(_), Some(_)) => "no\n",
                _ => "hidden\n",
            };
            answers.write_all(answer.as_bytes())?;
            line.clear();
        }
        answers.flush()
    }

    /// The numbers of the queries between items that the view shows.
    fn pairs(&self, queries: &str) -> Vec<(u32, u32)> {
        let number = |name| self.numbers.get(name).copied();
        let lines = queries.lines().filter_map(|line| line.split_once(' '));
        lines.filter_map(|(first, second)| Some((number(first)?, number(second)?))).collect()
    }

    /// The bytes of the table: a name, its number and a mark for each place that it has, and the letters, without what the allocator adds.
    fn bytes(&self) -> usize {
        let places = (self.numbers.capacity() * 8 / 7).next_power_of_two();
        places * (std::mem::size_of::<(String, u32)>() + 1) + self.numbers.keys().map(String::len).sum::<usize>()
    }
}

fn least(turns: usize, mut work: impl FnMut()) -> f64 {
    (0..turns).map(|_| timed(&mut work).1).fold(f64::INFINITY, f64::min)
}

fn main() {
    let words: Vec<String> = std::env::args().collect();
    let [_, export, queries, answers, turns] = &words[..] else { panic!("two_hop EXPORT QUERIES ANSWERS TURNS") };
    let turns: usize = turns.parse().expect("a number of turns");
    let text = std::fs::read_to_string(export).expect("EXPORT");
    let items = Ports::read(&text).joined();
    drop(text);
    let count = items.names.len();
    let (labels, building) = timed(|| TwoHop::build(count, &items.links));
    let (numbers, table) = timed(|| items.names.into_iter().zip(0..).collect::<HashMap<String, u32>>());
    let named = Named { numbers, labels };
    let pairs = named.pairs(&std::fs::read_to_string(queries).expect("QUERIES"));
    let mut found = 0;
    let by_number = least(turns, || found = pairs.iter().filter(|&&(from, to)| named.labels.leads(from, to)).count());
    let by_name = least(turns, || named.answer(queries, answers).expect("QUERIES and ANSWERS"));
    println!("items {count}\nlinks {}\nlandmarks {}", items.links.len(), named.labels.leads_to.of.len() + named.labels.led_from.of.len());
    println!("bytes {}\nnames {}\nlabels {building}\ntable {table}", named.labels.bytes(), named.bytes());
    println!("yes {found}\npairs {}\nnumber {by_number}\nname {by_name}", pairs.len());
}
