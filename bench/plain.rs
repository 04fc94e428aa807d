//! The logbook of docs/RULES.md in plain Rust over a `Vec<u64>`, written for the measuring of what our own calls cost: no contracts, no
//! proofs, a memory that writes through. It plays the same lists of calls as crates/bench and must print the same.
//!
//!     rustc -O bench/plain.rs -o /tmp/plain && /tmp/plain find 4

use std::cmp::Ordering;
use std::env;
use std::marker::PhantomData;

const SLOTS: usize = 16;
const MARK: u64 = 30_366;

type Words = (u64, u64);

/// Numbers by which a call is refused.
#[derive(Clone, Copy, PartialEq, Eq, Debug)]
enum Refusal {
    Outside = 1,
    WrongLength = 4,
    LeafCount = 7,
    NotAKey = 10,
    Present = 11,
    Absent = 12,
    NoRoom = 13,
    Blank = 14,
}

/// A kind of key.
trait Key: Copy {
    const CODE: u64;
    fn pack(&self) -> Words;
    fn compare(a: Words, b: Words) -> Ordering;
}

#[derive(Clone, Copy)]
struct Stamp {
    year: u16,
    day: u16,
    millisecond: u32,
}

fn last_day(year: u64) -> u64 {
    let leap = year % 4 == 0 && (year % 100 != 0 || year % 400 == 0);
    if leap { 366 } else { 365 }
}

impl Stamp {
    fn new(year: u64, day: u64, millisecond: u64) -> Result<Self, Refusal> {
        let fits = (2000..=2399).contains(&year)
            && (1..=last_day(year)).contains(&day)
            && millisecond < 86_400_000;
        if !fits {
            return Err(Refusal::NotAKey);
        }
        Ok(Stamp {
            year: year as u16,
            day: day as u16,
            millisecond: millisecond as u32,
        })
    }
}

impl Key for Stamp {
    const CODE: u64 = 1;

    fn pack(&self) -> Words {
        (
            u64::from(self.millisecond),
            u64::from(self.year) * 512 + u64::from(self.day),
        )
    }

    fn compare(a: Words, b: Words) -> Ordering {
        (a.1, a.0).cmp(&(b.1, b.0))
    }
}

/// A memory that writes through: a flush has nothing to do, and is a step all the same.
struct Memory {
    words: Vec<u64>,
}

impl Memory {
    fn read(&self, at: usize) -> Result<u64, Refusal> {
        self.words.get(at).copied().ok_or(Refusal::Outside)
    }

    fn store(&mut self, at: usize, word: u64) -> Result<(), Refusal> {
        *self.words.get_mut(at).ok_or(Refusal::Outside)? = word;
        Ok(())
    }

    fn flush(&mut self, line: usize) -> Result<(), Refusal> {
        if line >= self.words.len().div_ceil(8) {
            return Err(Refusal::Outside);
        }
        Ok(())
    }

    /// Stores words and flushes the line of the first.
    fn write(&mut self, at: usize, words: &[u64], steps: &mut usize) -> Result<(), Refusal> {
        for (i, word) in words.iter().enumerate() {
            self.store(at + i, *word)?;
            *steps += 1;
        }
        self.flush(at / 8)?;
        *steps += 1;
        Ok(())
    }
}

#[derive(Clone, Copy)]
struct Pair {
    key: Words,
    reading: u64,
}

#[derive(Clone, Copy)]
struct Element {
    sign: u64,
    key: Words,
    reading: u64,
}

fn start_of(leaf: usize) -> usize {
    8 + 72 * (leaf - 1)
}

/// A leaf or a child node, with its bound; that of the last one is not used.
#[derive(Clone, Copy)]
struct Entry {
    to: usize,
    bound: Words,
}

#[derive(Clone, Copy)]
struct Place {
    group: usize,
    slot: usize,
}

/// Nodes 0 to 90; the first `used` nodes of the lowest level hold the leaves.
struct Index {
    nodes: Vec<Vec<Entry>>,
    leaves: usize,
    low: usize,
    used: usize,
}

impl Index {
    fn new() -> Self {
        Index {
            nodes: vec![Vec::new(); 91],
            leaves: 0,
            low: 0,
            used: 0,
        }
    }

    fn rebuild(&mut self, leaves: &[Entry]) {
        for node in &mut self.nodes {
            node.clear();
        }
        self.leaves = leaves.len();
        self.used = leaves.len();
        self.low = match leaves.len() {
            0..=1 => 0,
            2..=9 => 1,
            _ => 10,
        };
        for (i, leaf) in leaves.iter().enumerate() {
            let mut node = self.low + i;
            self.nodes[node].push(*leaf);
            let mut first = true;
            while node > 0 && first {
                let above = (node - 1) / 9;
                first = (node - 1) % 9 == 0;
                self.nodes[above].push(Entry {
                    to: node,
                    bound: leaf.bound,
                });
                node = above;
            }
        }
        if self.low == 10 {
            for row in 0..leaves.len().div_ceil(9) {
                self.nodes[0][row].bound = self.nodes[1 + row].last().unwrap().bound;
            }
        }
    }

    fn groups(&self) -> &[Vec<Entry>] {
        &self.nodes[self.low..self.low + self.used]
    }

    fn search<K: Key>(entries: &[Entry], key: Words) -> usize {
        let last = entries.len() - 1;
        entries[..last]
            .iter()
            .position(|e| K::compare(e.bound, key).is_ge())
            .unwrap_or(last)
    }

    fn locate<K: Key>(&self, key: Words) -> Place {
        let mut node = 0;
        while node < self.low {
            let entries = &self.nodes[node];
            node = entries[Self::search::<K>(entries, key)].to;
        }
        Place {
            group: node - self.low,
            slot: Self::search::<K>(&self.nodes[node], key),
        }
    }

    fn at(&self, place: Place) -> usize {
        self.groups()[place.group][place.slot].to
    }

    fn after(&self, place: Place) -> Option<Place> {
        if place.slot + 1 < self.groups()[place.group].len() {
            return Some(Place {
                slot: place.slot + 1,
                ..place
            });
        }
        (place.group + 1 < self.used).then_some(Place {
            group: place.group + 1,
            slot: 0,
        })
    }

    fn before(&self, place: Place) -> Option<Place> {
        if place.slot > 0 {
            return Some(Place {
                slot: place.slot - 1,
                ..place
            });
        }
        let group = place.group.checked_sub(1)?;
        Some(Place {
            group,
            slot: self.groups()[group].len() - 1,
        })
    }

    fn list(&self) -> Vec<Entry> {
        self.groups().iter().flatten().copied().collect()
    }

    fn position(&self, place: Place) -> usize {
        self.groups()[..place.group].iter().map(Vec::len).sum::<usize>() + place.slot
    }

    fn split(&mut self, place: Place, left: Entry, right: usize) {
        if self.groups()[place.group].len() < 5 {
            let node = &mut self.nodes[self.low + place.group];
            node[place.slot].to = right;
            node.insert(place.slot, left);
            self.leaves += 1;
            return;
        }
        let mut all = self.list();
        let at = self.position(place);
        all[at].to = right;
        all.insert(at, left);
        self.rebuild(&all);
    }

    fn merge(&mut self, place: Place, leaf: usize) {
        let mut all = self.list();
        let at = self.position(place);
        all.remove(at);
        all[at].to = leaf;
        self.rebuild(&all);
    }

    fn replace(&mut self, place: Place, leaf: usize) {
        self.nodes[self.low + place.group][place.slot].to = leaf;
    }
}

#[derive(Clone, Copy, PartialEq, Eq)]
enum Call {
    Put,
    Change,
    Remove,
}

/// An open or blank logbook; the memory has endless steps, so that it is never dark.
struct Logbook<K> {
    memory: Memory,
    index: Option<Index>,
    taken: usize,
    kind: PhantomData<K>,
}

impl<K: Key> Logbook<K> {
    fn new(words: Vec<u64>) -> Self {
        Logbook {
            memory: Memory { words },
            index: None,
            taken: 0,
            kind: PhantomData,
        }
    }

    fn index(&self) -> Result<&Index, Refusal> {
        self.index.as_ref().ok_or(Refusal::Blank)
    }

    fn format(&mut self, leaves: usize) -> Result<(), Refusal> {
        if !(2..=64).contains(&leaves) {
            return Err(Refusal::LeafCount);
        }
        if self.memory.words.len() < 8 + 72 * leaves {
            return Err(Refusal::WrongLength);
        }
        let mut steps = 0;
        self.memory.write(0, &[0], &mut steps)?;
        self.memory.write(8, &[0, 0, 0], &mut steps)?;
        self.memory.write(1, &[K::CODE, 1, leaves as u64], &mut steps)?;
        self.memory.write(0, &[MARK], &mut steps)?;
        let mut index = self.index.take().unwrap_or_else(Index::new);
        index.rebuild(&[Entry {
            to: 1,
            bound: (0, 0),
        }]);
        self.index = Some(index);
        self.taken = 0;
        Ok(())
    }

    fn count(&self, leaf: usize) -> Result<usize, Refusal> {
        Ok(self.memory.read(start_of(leaf) + 1)? as usize)
    }

    fn element(&self, leaf: usize, slot: usize) -> Result<Element, Refusal> {
        let at = start_of(leaf) + 8 + 4 * slot;
        Ok(Element {
            sign: self.memory.read(at)?,
            key: (self.memory.read(at + 1)?, self.memory.read(at + 2)?),
            reading: self.memory.read(at + 3)?,
        })
    }

    /// The reading that a leaf's first `count` elements leave a key with: the newest element of the key tells it.
    fn held(&self, leaf: usize, count: usize, key: Words) -> Result<Option<u64>, Refusal> {
        for slot in (0..count).rev() {
            let element = self.element(leaf, slot)?;
            if element.key == key {
                return Ok((element.sign == 1).then_some(element.reading));
            }
        }
        Ok(None)
    }

    /// The pairs of a leaf in the order of their keys.
    fn pairs_of(&self, leaf: usize) -> Result<Vec<Pair>, Refusal> {
        let mut pairs: Vec<Pair> = Vec::with_capacity(SLOTS + 1);
        for slot in 0..self.count(leaf)? {
            let Element { sign, key, reading } = self.element(leaf, slot)?;
            let found = pairs.binary_search_by(|p| K::compare(p.key, key));
            match (found, sign) {
                (Err(at), 1) => pairs.insert(at, Pair { key, reading }),
                (Ok(at), 1) => pairs[at].reading = reading,
                (Ok(at), _) => {
                    pairs.remove(at);
                }
                (Err(_), _) => {}
            }
        }
        Ok(pairs)
    }

    fn find(&self, key: &K) -> Result<u64, Refusal> {
        let key = key.pack();
        let index = self.index()?;
        let leaf = index.at(index.locate::<K>(key));
        self.held(leaf, self.count(leaf)?, key)?.ok_or(Refusal::Absent)
    }

    fn next(&self, key: &K) -> Result<Pair, Refusal> {
        let key = key.pack();
        let index = self.index()?;
        let mut place = Some(index.locate::<K>(key));
        while let Some(at) = place {
            let pairs = self.pairs_of(index.at(at))?;
            if let Some(pair) = pairs.iter().find(|p| K::compare(p.key, key).is_gt()) {
                return Ok(*pair);
            }
            place = index.after(at);
        }
        Err(Refusal::Absent)
    }

    fn pairs(&self) -> Result<usize, Refusal> {
        let mut all = 0;
        for leaf in self.index()?.list() {
            all += self.pairs_of(leaf.to)?.len();
        }
        Ok(all)
    }

    fn put(&mut self, key: &K, reading: u64) -> Result<usize, Refusal> {
        Ok(self.turn(Call::Put, key.pack(), reading)?.0)
    }

    fn change(&mut self, key: &K, reading: u64) -> Result<usize, Refusal> {
        Ok(self.turn(Call::Change, key.pack(), reading)?.0)
    }

    fn remove(&mut self, key: &K) -> Result<(usize, u64), Refusal> {
        self.turn(Call::Remove, key.pack(), 0)
    }

    /// Any of the three calls; told are its steps, and the reading that the key had.
    fn turn(&mut self, call: Call, key: Words, reading: u64) -> Result<(usize, u64), Refusal> {
        let index = self.index()?;
        let place = index.locate::<K>(key);
        let leaf = index.at(place);
        let count = self.count(leaf)?;
        let held = self.held(leaf, count, key)?;
        let old = match (call, held) {
            (Call::Put, Some(_)) => return Err(Refusal::Present),
            (Call::Put, None) => 0,
            (_, None) => return Err(Refusal::Absent),
            (Call::Change, Some(old)) if old == reading => return Ok((0, old)),
            (_, Some(old)) => old,
        };
        let list = [(2, old), (1, reading)];
        let list = match call {
            Call::Put => &list[1..],
            Call::Change => &list[..],
            Call::Remove => &list[..1],
        };
        let steps = if count + list.len() <= SLOTS {
            self.append(leaf, count, key, list)?
        } else {
            self.rewrite(place, leaf, call, Pair { key, reading })?
        };
        Ok((steps, old))
    }

    fn append(
        &mut self,
        leaf: usize,
        count: usize,
        key: Words,
        list: &[(u64, u64)],
    ) -> Result<usize, Refusal> {
        let mut steps = 0;
        let mut at = start_of(leaf) + 8 + 4 * count;
        for (sign, reading) in list {
            self.memory.write(at, &[*sign, key.0, key.1, *reading], &mut steps)?;
            at += 4;
        }
        let count = (count + list.len()) as u64;
        self.memory.write(start_of(leaf) + 1, &[count], &mut steps)?;
        Ok(steps)
    }

    /// The next free leaf, counting up and round from the one taken last.
    fn take_free(&mut self, used: &[bool; 65], leaves: usize) -> Option<usize> {
        let leaf = (self.taken + 1..=leaves).chain(1..=self.taken).find(|leaf| !used[*leaf])?;
        self.taken = leaf;
        Some(leaf)
    }

    fn write_leaf(
        &mut self,
        leaf: usize,
        next: usize,
        pairs: &[Pair],
        steps: &mut usize,
    ) -> Result<(), Refusal> {
        let start = start_of(leaf);
        for (line, two) in pairs.chunks(2).enumerate() {
            let mut words = [0; 8];
            for (i, pair) in two.iter().enumerate() {
                let Pair { key, reading } = *pair;
                words[4 * i..4 * i + 4].copy_from_slice(&[1, key.0, key.1, reading]);
            }
            let words = &words[..4 * two.len()];
            self.memory.write(start + 8 + 8 * line, words, steps)?;
        }
        self.memory.write(start, &[next as u64, pairs.len() as u64, 0], steps)
    }

    fn rewrite(&mut self, place: Place, leaf: usize, call: Call, pair: Pair) -> Result<usize, Refusal> {
        let mut pairs = self.pairs_of(leaf)?;
        match (pairs.binary_search_by(|p| K::compare(p.key, pair.key)), call) {
            (Ok(at), Call::Remove) => {
                pairs.remove(at);
            }
            (Ok(at), _) => pairs[at].reading = pair.reading,
            (Err(at), _) => pairs.insert(at, pair),
        }
        let index = self.index()?;
        let after = index.after(place);
        let next = after.map_or(0, |p| index.at(p));
        let past = after.and_then(|p| index.after(p)).map_or(0, |p| index.at(p));
        let at = index.before(place).map_or(2, |p| start_of(index.at(p)));
        let mut used = [false; 65];
        for entry in index.groups().iter().flatten() {
            used[entry.to] = true;
        }
        let linked = index.leaves;
        let leaves = self.memory.read(3)? as usize;
        let mut steps = 0;
        if call != Call::Remove && pairs.len() > 8 {
            if leaves - linked < 2 {
                return Err(Refusal::NoRoom);
            }
            let left = self.take_free(&used, leaves).ok_or(Refusal::NoRoom)?;
            used[left] = true;
            let right = self.take_free(&used, leaves).ok_or(Refusal::NoRoom)?;
            let (smaller, larger) = pairs.split_at(pairs.len() / 2);
            let bound = smaller[smaller.len() - 1].key;
            self.write_leaf(left, right, smaller, &mut steps)?;
            self.write_leaf(right, next, larger, &mut steps)?;
            self.memory.write(at, &[left as u64], &mut steps)?;
            let index = self.index.as_mut().ok_or(Refusal::Blank)?;
            index.split(place, Entry { to: left, bound }, right);
            return Ok(steps);
        }
        let merges = pairs.len() <= 8 && next != 0 && self.count(next)? <= 8;
        let new = self.take_free(&used, leaves).ok_or(Refusal::NoRoom)?;
        if merges {
            pairs.extend(self.pairs_of(next)?);
        }
        self.write_leaf(new, if merges { past } else { next }, &pairs, &mut steps)?;
        self.memory.write(at, &[new as u64], &mut steps)?;
        let index = self.index.as_mut().ok_or(Refusal::Blank)?;
        if merges {
            index.merge(place, new);
        } else {
            index.replace(place, new);
        }
        Ok(steps)
    }
}

// The lists of calls, as crates/bench makes them.

const KEYS: u64 = 256;

#[derive(Clone, Copy, PartialEq, Eq)]
enum Kind {
    Put,
    Change,
    Remove,
    Find,
    Next,
}

#[derive(Default)]
struct Totals {
    granted: u64,
    steps: u64,
    readings: u64,
}

fn pass(
    book: &mut Logbook<Stamp>,
    kind: Kind,
    seed: u64,
    totals: &mut Totals,
) -> Result<u64, Refusal> {
    let mut number = seed;
    for i in 0..KEYS {
        number = number
            .wrapping_mul(6_364_136_223_846_793_005)
            .wrapping_add(1_442_695_040_888_963_407);
        let k = match kind {
            Kind::Put => i.wrapping_mul(167).wrapping_add(seed),
            Kind::Remove => i.wrapping_mul(91).wrapping_add(seed),
            _ => number >> 32,
        } % KEYS;
        let key = Stamp::new(2024, k + 1, 1000 * k)?;
        let told = match kind {
            Kind::Put => book.put(&key, number).map(|steps| (steps, 0)),
            Kind::Change => book.change(&key, number).map(|steps| (steps, 0)),
            Kind::Remove => book.remove(&key),
            Kind::Find => book.find(&key).map(|reading| (0, reading)),
            Kind::Next => book.next(&key).map(|pair| (0, pair.reading)),
        };
        if let Ok((steps, reading)) = told {
            totals.granted = totals.granted.wrapping_add(1);
            totals.steps = totals.steps.wrapping_add(steps as u64);
            totals.readings = totals.readings.wrapping_add(reading);
        }
    }
    Ok(number)
}

fn play(kind: Kind, rounds: u64) -> Result<(Totals, usize), Refusal> {
    let mut book = Logbook::<Stamp>::new(vec![0; 4616]);
    let mut totals = Totals::default();
    let mut seed = 1;
    for _ in 0..rounds {
        book.format(64)?;
        seed = pass(&mut book, Kind::Put, seed, &mut totals)?;
        if kind != Kind::Put {
            seed = pass(&mut book, kind, seed, &mut totals)?;
        }
    }
    let pairs = book.pairs()?;
    Ok((totals, pairs))
}

fn main() {
    let words: Vec<String> = env::args().collect();
    let kind = match words.get(1).map(String::as_str) {
        Some("put") => Some(Kind::Put),
        Some("change") => Some(Kind::Change),
        Some("remove") => Some(Kind::Remove),
        Some("find") => Some(Kind::Find),
        Some("next") => Some(Kind::Next),
        _ => None,
    };
    let rounds = words.get(2).and_then(|word| word.parse().ok());
    let (Some(kind), Some(rounds)) = (kind, rounds) else {
        println!("bench KIND ROUNDS");
        return;
    };
    let name = &words[1];
    match play(kind, rounds) {
        Ok((Totals { granted, steps, readings }, pairs)) => println!(
            "{name}, {rounds} rounds: granted {granted}, steps {steps}, readings {readings}, pairs {pairs}"
        ),
        Err(refusal) => println!("{name}: refused {}", refusal as u8),
    }
}
