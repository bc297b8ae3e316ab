//! The twin: one shard's tree and queue by the rules of docs/tree.md, as plain Rust for `rustc -O`.
//!
//! Reads a script of `script.py` on standard input, with one server and without quotes, and prints the answers
//! that `volap step` prints. It is written to be as fast as those rules allow: blocks of 32 rows or 16 entries,
//! sets of at most 6 concepts a dimension, right links, stamps, good cuts and head cuts. It keeps neither the
//! script nor a history, and has no steps: a command goes from its beginning to its end. The script is taken
//! to be good, and nothing is done for want of memory.
use std::collections::HashMap;
use std::hash::{BuildHasherDefault, Hasher};
use std::io::{Read, Write};

/// How many dimensions there is room for.
const DIMS: usize = 8;
/// How many rows a leaf holds, entries a directory, and concepts a set in a dimension.
const ROWS: usize = 32;
const ENTRIES: usize = 16;
const CONCEPTS: usize = 6;
/// A group of so many blocks is cut by its head.
const HEAD_CUT: usize = 3;
/// No concept, and no block.
const NONE: u32 = u32::MAX;

/// A concept: its level in the highest four bits, and its number within the level.
type Id = u32;
/// The ancestors of a concept by their levels, itself among them.
type Lineage = [Id; 9];
/// A row's concepts.
type Place = [Id; DIMS];

fn level_of(id: Id) -> usize {
    (id >> 28) as usize
}

fn number_of(id: Id) -> usize {
    (id & 0x0fff_ffff) as usize
}

/// A small hash for names.
#[derive(Default)]
struct NameHasher(u64);

impl NameHasher {
    fn mix(&mut self, word: u64) {
        self.0 = (self.0.rotate_left(5) ^ word).wrapping_mul(0x517c_c1b7_2722_0a95);
    }
}

impl Hasher for NameHasher {
    fn finish(&self) -> u64 {
        self.0 ^ (self.0 >> 29)
    }

    fn write(&mut self, bytes: &[u8]) {
        for chunk in bytes.chunks(8) {
            let mut word = [0u8; 8];
            word[..chunk.len()].copy_from_slice(chunk);
            self.mix(u64::from_le_bytes(word));
        }
    }

    fn write_usize(&mut self, number: usize) {
        self.mix(number as u64);
    }
}

/// A dimension: its concepts level by level, those of level 0 being the one `*`.
struct Dimension {
    leaf: usize,
    parents: Vec<Vec<Id>>,
    lineages: Vec<Vec<Lineage>>,
    ids: HashMap<Vec<u8>, Id, BuildHasherDefault<NameHasher>>,
    /// Where the marks of each level begin among all.
    base: [usize; 10],
    total: usize,
}

impl Dimension {
    fn new(levels: usize) -> Dimension {
        let mut parents = vec![Vec::new(); levels + 1];
        let mut lineages = vec![Vec::new(); levels + 1];
        parents[0].push(0);
        lineages[0].push([0; 9]);
        Dimension { leaf: levels, parents, lineages, ids: HashMap::default(), base: [0; 10], total: 0 }
    }

    fn add(&mut self, name: &[u8], parent: &[u8]) {
        let parent = if parent == b"*" { 0 } else { self.ids[parent] };
        let level = level_of(parent) + 1;
        let id = (level << 28 | self.parents[level].len()) as Id;
        let mut lineage = self.lineages[level - 1][number_of(parent)];
        lineage[level] = id;
        self.parents[level].push(parent);
        self.lineages[level].push(lineage);
        self.ids.insert(name.to_vec(), id);
    }

    /// Counts the concepts, when all stand.
    fn close(&mut self) {
        for level in 0..=self.leaf {
            self.base[level] = self.total;
            self.total += self.parents[level].len();
        }
    }

    #[inline(always)]
    fn up(&self, id: Id, level: usize) -> Id {
        self.lineages[level_of(id)][number_of(id)][level]
    }

    fn mark_of(&self, id: Id) -> usize {
        self.base[level_of(id)] + number_of(id)
    }
}

#[derive(Clone, Copy)]
struct Aggregate {
    count: u64,
    sum: i128,
    least: i64,
    greatest: i64,
}

const EMPTY: Aggregate = Aggregate { count: 0, sum: 0, least: i64::MAX, greatest: i64::MIN };

impl Aggregate {
    #[inline(always)]
    fn add(&mut self, measure: i64) {
        self.count += 1;
        self.sum += measure as i128;
        self.least = self.least.min(measure);
        self.greatest = self.greatest.max(measure);
    }

    #[inline(always)]
    fn join(&mut self, other: &Aggregate) {
        self.count += other.count;
        self.sum += other.sum;
        self.least = self.least.min(other.least);
        self.greatest = self.greatest.max(other.greatest);
    }
}

/// One dimension of a set: concepts of one level, in their order. Unused ones are NONE.
#[derive(Clone, Copy)]
#[repr(C)]
struct Part {
    ids: [Id; CONCEPTS],
    level: u32,
    count: u32,
}

impl Part {
    fn empty(level: usize) -> Part {
        Part { ids: [NONE; CONCEPTS], level: level as u32, count: 0 }
    }

    #[inline(always)]
    fn used(&self) -> &[Id] {
        &self.ids[..(self.count as usize).min(CONCEPTS)]
    }

    /// All eight words are compared at once: the level and the count are no ids but that of `*`, which is in
    /// every part of level 0.
    #[inline(always)]
    fn has(&self, id: Id) -> bool {
        let words: &[u32; 8] = unsafe { &*(self as *const Part as *const [u32; 8]) };
        words.iter().fold(0, |found, word| found | (*word == id) as u32) != 0
    }

    /// Adds a concept of the part's level where there is room for it.
    fn add_here(&mut self, id: Id) -> bool {
        if self.has(id) {
            return true;
        }
        let count = self.count as usize;
        if count >= CONCEPTS {
            return false;
        }
        let mut at = count;
        while at > 0 && self.ids[at - 1] > id {
            self.ids[at] = self.ids[at - 1];
            at -= 1;
        }
        self.ids[at] = id;
        self.count += 1;
        true
    }

    /// Adds a concept by its ancestor, and goes up a level as long as there is no room.
    fn add(&mut self, dim: &Dimension, id: Id) {
        while !self.add_here(dim.up(id, self.level as usize)) {
            let level = self.level as usize - 1;
            let old = *self;
            *self = Part::empty(level);
            for other in old.used() {
                self.add_here(dim.up(*other, level));
            }
        }
    }

    fn join(&self, dim: &Dimension, other: &Part) -> Part {
        let (mut upper, lower) = if other.level < self.level { (*other, self) } else { (*self, other) };
        for id in lower.used() {
            upper.add(dim, *id);
        }
        upper
    }
}

/// How a set lies to a filter.
const OUTSIDE: u8 = 0;
const OVERLAPPING: u8 = 1;
const INSIDE: u8 = 2;

#[derive(Clone, Copy)]
struct Set {
    parts: [Part; DIMS],
}

impl Set {
    fn empty(dims: &[Dimension]) -> Set {
        let mut set = Set { parts: [Part::empty(0); DIMS] };
        for (part, dim) in set.parts.iter_mut().zip(dims) {
            *part = Part::empty(dim.leaf);
        }
        set
    }

    #[inline]
    fn grow(&mut self, dims: &[Dimension], row: &Lifted) {
        for (d, dim) in dims.iter().enumerate() {
            let part = &mut self.parts[d];
            if !part.has(row.at[d][part.level as usize]) {
                part.add(dim, row.leaf(d));
            }
        }
    }

    fn join(&mut self, dims: &[Dimension], other: &Set) {
        for (d, dim) in dims.iter().enumerate() {
            self.parts[d] = self.parts[d].join(dim, &other.parts[d]);
        }
    }

    #[inline]
    fn size(&self, dims: &[Dimension]) -> u32 {
        let of_part = |(part, dim): (&Part, &Dimension)| 8 * (dim.leaf as u32 - part.level) + part.count;
        self.parts.iter().zip(dims).map(of_part).sum()
    }

    /// In how many dimensions a row is new to the set.
    #[inline(always)]
    fn growth(&self, dims: &[Dimension], row: &Lifted) -> u32 {
        let mut growth = 0;
        for d in 0..dims.len() {
            let part = &self.parts[d];
            growth += !part.has(row.at[d][part.level as usize]) as u32;
        }
        growth
    }

    #[inline(always)]
    fn test(&self, dims: &[Dimension], filter: &Filter) -> u8 {
        let mut all = INSIDE;
        for wanted in &filter.wanted {
            let part = &self.parts[wanted.dim];
            let marks = &filter.marks[wanted.marks + dims[wanted.dim].base[part.level as usize]..];
            let (mut least, mut most) = (INSIDE, OUTSIDE);
            for id in part.used() {
                let mark = marks[number_of(*id)];
                least = least.min(mark);
                most = most.max(mark);
            }
            if most == OUTSIDE {
                return OUTSIDE;
            }
            if least < INSIDE {
                all = OVERLAPPING;
            }
        }
        all
    }
}

/// A row's concepts with their ancestors on all levels, the leaves once more at the end.
struct Lifted {
    at: [Lineage; DIMS],
}

impl Lifted {
    fn of(dims: &[Dimension], place: &Place) -> Lifted {
        let mut lifted = Lifted { at: [[0; 9]; DIMS] };
        for (d, dim) in dims.iter().enumerate() {
            lifted.at[d] = dim.lineages[dim.leaf][number_of(place[d])];
            lifted.at[d][8] = place[d];
        }
        lifted
    }

    #[inline(always)]
    fn leaf(&self, d: usize) -> Id {
        self.at[d][8]
    }
}

/// A dimension in which a filter lists concepts, and where its marks begin.
struct Wanted {
    dim: usize,
    marks: usize,
}

/// A filter: for each concept of a dimension in which it lists some a mark, which is INSIDE at and beneath a
/// listed one, OVERLAPPING above one, and OUTSIDE else.
struct Filter {
    wanted: Vec<Wanted>,
    marks: Vec<u8>,
}

impl Filter {
    /// The room for the marks is handed on from query to query.
    fn new(dims: &[Dimension], listed: Vec<Option<Vec<Id>>>, mut marks: Vec<u8>) -> Filter {
        marks.clear();
        let mut wanted = Vec::new();
        for (d, ids) in listed.into_iter().enumerate() {
            let Some(ids) = ids else { continue };
            let start = marks.len();
            marks.resize(start + dims[d].total, OUTSIDE);
            mark(&dims[d], &ids, &mut marks[start..]);
            wanted.push(Wanted { dim: d, marks: start });
        }
        Filter { wanted, marks }
    }

    #[inline(always)]
    fn wants(&self, dims: &[Dimension], wanted: &Wanted, leaf: Id) -> bool {
        let dim = &dims[wanted.dim];
        self.marks[wanted.marks + dim.base[dim.leaf] + number_of(leaf)] == INSIDE
    }
}

/// Marks what listed concepts of a dimension pick.
fn mark(dim: &Dimension, ids: &[Id], marks: &mut [u8]) {
    for id in ids {
        let mut above = *id;
        marks[dim.mark_of(above)] = INSIDE;
        while level_of(above) > 0 {
            above = dim.parents[level_of(above)][number_of(above)];
            let mark = &mut marks[dim.mark_of(above)];
            *mark = (*mark).max(OVERLAPPING);
        }
    }
    let highest = ids.iter().map(|id| level_of(*id)).min().unwrap();
    for level in highest + 1..=dim.leaf {
        let (above, here) = marks.split_at_mut(dim.base[level]);
        let above = &above[dim.base[level - 1]..];
        for (number, parent) in dim.parents[level].iter().enumerate() {
            if above[number_of(*parent)] == INSIDE {
                here[number] = INSIDE;
            }
        }
    }
}

/// The rows of a leaf, by columns.
#[derive(Clone)]
struct Rows {
    count: usize,
    measures: [i64; ROWS],
    columns: [[Id; ROWS]; DIMS],
    /// The event of each row's beginning, which a history would have.
    events: [u64; ROWS],
}

impl Rows {
    fn new() -> Rows {
        Rows { count: 0, measures: [0; ROWS], columns: [[0; ROWS]; DIMS], events: [0; ROWS] }
    }

    fn push(&mut self, dims: usize, event: u64, place: &Place, measure: i64) {
        let at = self.count;
        self.events[at] = event;
        self.measures[at] = measure;
        for d in 0..dims {
            self.columns[d][at] = place[d];
        }
        self.count += 1;
    }

    fn row(&self, dims: usize, at: usize) -> (u64, Place, i64) {
        let mut place = [0; DIMS];
        for d in 0..dims {
            place[d] = self.columns[d][at];
        }
        (self.events[at], place, self.measures[at])
    }

    /// Adds the rows that a filter matches: a bit for each row, dimension by dimension.
    #[inline(never)]
    fn total(&self, dims: &[Dimension], filter: &Filter, total: &mut Aggregate) {
        let count = self.count.min(ROWS);
        let mut hits: u32 = if count == ROWS { !0 } else { (1 << count) - 1 };
        for wanted in &filter.wanted {
            let (column, dim) = (&self.columns[wanted.dim], &dims[wanted.dim]);
            let marks = &filter.marks[wanted.marks + dim.base[dim.leaf]..];
            let mut matching = 0u32;
            for at in 0..count {
                // A leaf has a mark. A proved program has no test of this index either.
                let mark = unsafe { *marks.get_unchecked(number_of(column[at])) };
                matching |= (mark as u32 >> 1) << at;
            }
            hits &= matching;
            if hits == 0 {
                return;
            }
        }
        while hits != 0 {
            let at = hits.trailing_zeros();
            hits &= hits - 1;
            total.add(self.measures[at as usize]);
        }
    }
}

/// The group beneath an entry of a directory: its head, the stamp at which it ends, and what is in it.
#[derive(Clone, Copy)]
struct Entry {
    child: u32,
    stamp: u64,
    aggregate: Aggregate,
    set: Set,
}

#[derive(Clone)]
struct Directory {
    count: usize,
    entries: [Entry; ENTRIES],
}

enum Body {
    Rows(Box<Rows>),
    Directory(Box<Directory>),
}

struct Block {
    stamp: u64,
    right: u32,
    body: Body,
}

/// The concepts of an item in a dimension, which is a row or an entry: their level, and how many they are.
type Item = (usize, [Id; CONCEPTS], usize);

impl Block {
    fn new_directory(dims: &[Dimension], stamp: u64) -> Block {
        let entry = Entry { child: 0, stamp: 0, aggregate: EMPTY, set: Set::empty(dims) };
        let body = Body::Directory(Box::new(Directory { count: 0, entries: [entry; ENTRIES] }));
        Block { stamp, right: NONE, body }
    }

    fn len(&self) -> usize {
        match &self.body {
            Body::Rows(rows) => rows.count,
            Body::Directory(directory) => directory.count,
        }
    }

    fn is_full(&self) -> bool {
        match &self.body {
            Body::Rows(rows) => rows.count == ROWS,
            Body::Directory(directory) => directory.count == ENTRIES,
        }
    }

    fn item(&self, dims: &[Dimension], at: usize, d: usize) -> Item {
        match &self.body {
            Body::Rows(rows) => (dims[d].leaf, [rows.columns[d][at], 0, 0, 0, 0, 0], 1),
            Body::Directory(directory) => {
                let part = &directory.entries[at].set.parts[d];
                (part.level as usize, part.ids, part.count as usize)
            }
        }
    }

    fn summary(&self, dims: &[Dimension]) -> (Aggregate, Set) {
        let (mut aggregate, mut set) = (EMPTY, Set::empty(dims));
        match &self.body {
            Body::Rows(rows) => {
                for at in 0..rows.count {
                    let (_, place, measure) = rows.row(dims.len(), at);
                    aggregate.add(measure);
                    for (d, dim) in dims.iter().enumerate() {
                        set.parts[d].add(dim, place[d]);
                    }
                }
            }
            Body::Directory(directory) => {
                for entry in &directory.entries[..directory.count] {
                    aggregate.join(&entry.aggregate);
                    set.join(dims, &entry.set);
                }
            }
        }
        (aggregate, set)
    }

    /// The items with these numbers, as a body.
    fn taken(&self, dims: &[Dimension], numbers: &[u8]) -> Body {
        match &self.body {
            Body::Rows(rows) => {
                let mut taken = Box::new(Rows::new());
                for at in numbers {
                    let (event, place, measure) = rows.row(dims.len(), *at as usize);
                    taken.push(dims.len(), event, &place, measure);
                }
                Body::Rows(taken)
            }
            Body::Directory(directory) => {
                let mut taken = Box::new(Directory { count: 0, entries: [directory.entries[0]; ENTRIES] });
                for at in numbers {
                    taken.entries[taken.count] = directory.entries[*at as usize];
                    taken.count += 1;
                }
                Body::Directory(taken)
            }
        }
    }
}

/// The items of a full block in the order of a cut, and how many of them stay.
struct Cut {
    order: [u8; ROWS],
    stay: usize,
}

fn least_of(dim: &Dimension, item: &Item, level: usize) -> Id {
    item.1[..item.2].iter().map(|id| dim.up(*id, level)).min().unwrap_or(0)
}

/// The ancestors of some items on a level, in their order.
fn lifted_of<'a>(dim: &Dimension, items: impl Iterator<Item = &'a Item>, level: usize) -> Vec<Id> {
    let mut found: Vec<Id> = items.flat_map(|it| it.1[..it.2].iter().map(|id| dim.up(*id, level))).collect();
    found.sort_unstable();
    found
}

/// How many concepts two lists in their order share.
fn shared(left: &[Id], right: &[Id]) -> usize {
    let (mut i, mut j, mut count) = (0, 0, 0);
    while i < left.len() && j < right.len() {
        if left[i] < right[j] {
            i += 1;
        } else if left[i] > right[j] {
            j += 1;
        } else {
            let id = left[i];
            count += 1;
            while i < left.len() && left[i] == id {
                i += 1;
            }
            while j < right.len() && right[j] == id {
                j += 1;
            }
        }
    }
    count
}

/// The good cut of a block of one group, if it has one.
fn good_cut(dims: &[Dimension], block: &Block) -> Option<Cut> {
    let count = block.len();
    let mut best: Option<(usize, usize, Cut)> = None;
    for (d, dim) in dims.iter().enumerate() {
        let items: Vec<Item> = (0..count).map(|at| block.item(dims, at, d)).collect();
        let top = items.iter().map(|it| it.0).min().unwrap();
        for level in 1..=top {
            let mut keys = [0u64; ROWS];
            for (at, item) in items.iter().enumerate() {
                keys[at] = (least_of(dim, item, level) as u64) << 8 | at as u64;
            }
            let keys = &mut keys[..count];
            if keys.iter().all(|key| key >> 8 == keys[0] >> 8) {
                continue;
            }
            keys.sort_unstable();
            let far = |at: usize| (2 * at).abs_diff(count);
            let mut stay = 0;
            for at in 1..count {
                if keys[at - 1] >> 8 != keys[at] >> 8 && (stay == 0 || far(at) < far(stay)) {
                    stay = at;
                }
            }
            if 3 * stay >= count && 3 * (count - stay) >= count {
                let side = |keys: &[u64]| lifted_of(dim, keys.iter().map(|key| &items[(key & 255) as usize]), level);
                let overlap = shared(&side(&keys[..stay]), &side(&keys[stay..]));
                let is_better = best.as_ref().map_or(true, |it| (overlap, level) < (it.0, it.1));
                if 5 * overlap <= count && is_better {
                    let mut order = [0u8; ROWS];
                    for (at, key) in keys.iter().enumerate() {
                        order[at] = *key as u8;
                    }
                    best = Some((overlap, level, Cut { order, stay }));
                }
            }
            break;
        }
    }
    best.map(|it| it.2)
}

/// The cut of a group of two or three blocks by its head: which of the head's items are kept, where these
/// share no concept with the others, nor with those of the other blocks.
fn head_cut(dims: &[Dimension], head: &Block, rest: &[&Block]) -> Option<Cut> {
    let count = head.len();
    let mut best: Option<(usize, usize, u32)> = None;
    for (d, dim) in dims.iter().enumerate() {
        let items: Vec<Item> = (0..count).map(|at| head.item(dims, at, d)).collect();
        let behind = |block: &&Block| (0..block.len()).map(|at| block.item(dims, at, d)).collect::<Vec<Item>>();
        let behind: Vec<Item> = rest.iter().flat_map(behind).collect();
        let top = items.iter().map(|it| it.0).min().unwrap();
        for level in 1..=top {
            let least: Vec<Id> = items.iter().map(|it| least_of(dim, it, level)).collect();
            if least.iter().all(|it| *it == least[0]) {
                continue;
            }
            if behind.iter().any(|it| it.0 < level) {
                break;
            }
            let mut candidates = least.clone();
            candidates.sort_unstable();
            candidates.dedup();
            for candidate in candidates {
                let is_kept = |at: &usize| least[*at] == candidate;
                let many = (0..count).filter(is_kept).count();
                if 3 * many < count || many == count {
                    continue;
                }
                let kept = lifted_of(dim, (0..count).filter(is_kept).map(|at| &items[at]), level);
                let others = (0..count).filter(|at| !is_kept(at)).map(|at| &items[at]).chain(&behind);
                if shared(&kept, &lifted_of(dim, others, level)) > 0 {
                    continue;
                }
                if best.map_or(true, |it| many > it.0 || (many == it.0 && level < it.1)) {
                    let bits = (0..count).filter(is_kept).fold(0, |bits, at| bits | 1 << at);
                    best = Some((many, level, bits));
                }
            }
            break;
        }
    }
    best.map(|(many, _, kept)| {
        let mut order = [0u8; ROWS];
        let ordered = (0..count).filter(|at| kept >> at & 1 != 0).chain((0..count).filter(|at| kept >> at & 1 == 0));
        for (place, at) in ordered.enumerate() {
            order[place] = at as u8;
        }
        Cut { order, stay: many }
    })
}

/// What was done for room in a group: nothing, a block halved, or a cut into these two.
enum Room {
    Had,
    Halved,
    Two(Entry, Entry),
}

/// A shard: its tree, by the root's group, and its queue.
struct Shard {
    dims: Vec<Dimension>,
    cells: Vec<Block>,
    free: u64,
    stamps: u64,
    root: u32,
    stamp: u64,
    height: u32,
    aggregate: Aggregate,
    set: Set,
    queue: Vec<(Place, i64)>,
    queued: Aggregate,
    queued_set: Set,
    /// The room for what a query has noted, and for its marks.
    noted: Vec<(u32, u64)>,
    marks: Vec<u8>,
}

impl Shard {
    fn new(dims: Vec<Dimension>, cells: u64) -> Shard {
        let set = Set::empty(&dims);
        let leaf = Block { stamp: 0, right: NONE, body: Body::Rows(Box::new(Rows::new())) };
        Shard {
            dims,
            cells: vec![leaf],
            free: cells - 2,
            stamps: 1,
            root: 0,
            stamp: 0,
            height: 1,
            aggregate: EMPTY,
            set,
            queue: Vec::new(),
            queued: EMPTY,
            queued_set: set,
            noted: Vec::new(),
            marks: Vec::new(),
        }
    }

    fn put(&mut self, block: Block) -> u32 {
        self.free -= 1;
        self.cells.push(block);
        self.cells.len() as u32 - 1
    }

    fn fresh_stamp(&mut self) -> u64 {
        self.stamps += 1;
        self.stamps - 1
    }

    /// The blocks of a group from its head on, up to one more than may be cut by the head.
    fn group(&self, head: u32, stamp: u64) -> Vec<u32> {
        let mut group = vec![head];
        loop {
            let last = &self.cells[*group.last().unwrap() as usize];
            if last.stamp == stamp || group.len() > HEAD_CUT {
                return group;
            }
            group.push(last.right);
        }
    }

    /// The entry of the blocks from one on to that with this stamp.
    fn entry_of(&self, head: u32, stamp: u64) -> Entry {
        let (mut aggregate, mut set) = (EMPTY, Set::empty(&self.dims));
        let mut at = head;
        loop {
            let block = &self.cells[at as usize];
            let (more, other) = block.summary(&self.dims);
            aggregate.join(&more);
            set.join(&self.dims, &other);
            if block.stamp == stamp {
                return Entry { child: head, stamp, aggregate, set };
            }
            at = block.right;
        }
    }

    /// Makes room in the head of a group that ends at a stamp.
    fn make_room(&mut self, head: u32, stamp: u64) -> Room {
        if !self.cells[head as usize].is_full() {
            return Room::Had;
        }
        let fresh = self.fresh_stamp();
        let group = self.group(head, stamp);
        let block = &self.cells[head as usize];
        let cut = match group.len() {
            1 => good_cut(&self.dims, block),
            2..=HEAD_CUT => {
                let rest: Vec<&Block> = group[1..].iter().map(|at| &self.cells[*at as usize]).collect();
                head_cut(&self.dims, block, &rest)
            }
            _ => None,
        };
        let count = block.len();
        // Without a cut the later half stays.
        let halves = || {
            let mut order = [0u8; ROWS];
            for at in 0..count {
                order[at] = ((at + count / 2) % count) as u8;
            }
            Cut { order, stay: count / 2 }
        };
        let is_cut = cut.is_some();
        let cut = cut.unwrap_or_else(halves);
        let stays = block.taken(&self.dims, &cut.order[..cut.stay]);
        let goes = block.taken(&self.dims, &cut.order[cut.stay..count]);
        let right = Block { stamp: block.stamp, right: block.right, body: goes };
        let at = self.put(right);
        let block = &mut self.cells[head as usize];
        block.body = stays;
        block.stamp = fresh;
        block.right = at;
        if !is_cut {
            return Room::Halved;
        }
        Room::Two(self.entry_of(head, fresh), self.entry_of(at, stamp))
    }

    #[inline(never)]
    fn insert(&mut self, event: u64, place: &Place, measure: i64) {
        let row = Lifted::of(&self.dims, place);
        if self.free < self.height as u64 + 2 {
            self.queue.push((*place, measure));
            self.queued.add(measure);
            self.queued_set.grow(&self.dims, &row);
            return;
        }
        let room = self.make_room(self.root, self.stamp);
        self.aggregate.add(measure);
        self.set.grow(&self.dims, &row);
        if let Room::Two(left, right) = room {
            self.put_root(left, right);
        }
        let mut cell = self.root;
        for _ in 1..self.height {
            cell = self.down(cell, &row, measure);
        }
        if let Body::Rows(rows) = &mut self.cells[cell as usize].body {
            rows.push(self.dims.len(), event, place, measure);
        }
    }

    /// A new root above two groups.
    fn put_root(&mut self, left: Entry, right: Entry) {
        let stamp = self.fresh_stamp();
        let mut top = Block::new_directory(&self.dims, stamp);
        if let Body::Directory(directory) = &mut top.body {
            directory.entries[0] = left;
            directory.entries[1] = right;
            directory.count = 2;
        }
        self.root = self.put(top);
        self.stamp = stamp;
        self.height += 1;
    }

    /// The entry by which a row goes down: the one that grows least, of these the smallest, of these the first.
    #[inline(always)]
    fn pick(&self, directory: &Directory, row: &Lifted) -> usize {
        let (mut place, mut least, mut size) = (0, u32::MAX, NONE);
        for at in 0..directory.count.min(ENTRIES) {
            let set = &directory.entries[at].set;
            let growth = set.growth(&self.dims, row);
            if growth < least {
                (place, least, size) = (at, growth, NONE);
            } else if growth == least {
                // A size is counted on a tie alone.
                if size == NONE {
                    size = directory.entries[place].set.size(&self.dims);
                }
                let other = set.size(&self.dims);
                if other < size {
                    (place, size) = (at, other);
                }
            }
        }
        place
    }

    /// Takes a row one level down, and makes room beneath.
    #[inline(always)]
    fn down(&mut self, cell: u32, row: &Lifted, measure: i64) -> u32 {
        let Body::Directory(directory) = &self.cells[cell as usize].body else { unreachable!() };
        let place = self.pick(directory, row);
        let Entry { child, stamp, .. } = directory.entries[place];
        let is_full = self.cells[child as usize].is_full();
        let room = if is_full { self.make_room(child, stamp) } else { Room::Had };
        let dims = &self.dims;
        let Body::Directory(directory) = &mut self.cells[cell as usize].body else { unreachable!() };
        let mut at = place;
        if let Room::Two(left, right) = room {
            let (one, other) = (left.set.growth(dims, row), right.set.growth(dims, row));
            if other < one || (other == one && right.set.size(dims) < left.set.size(dims)) {
                at += 1;
            }
            directory.entries.copy_within(place + 1..directory.count, place + 2);
            directory.count += 1;
            directory.entries[place] = left;
            directory.entries[place + 1] = right;
        }
        let entry = &mut directory.entries[at];
        entry.aggregate.add(measure);
        entry.set.grow(dims, row);
        entry.child
    }

    #[inline(never)]
    fn query(&mut self, listed: Vec<Option<Vec<Id>>>) -> Aggregate {
        let dims = &self.dims;
        let filter = Filter::new(dims, listed, std::mem::take(&mut self.marks));
        let mut total = EMPTY;
        match self.queued_set.test(dims, &filter) {
            INSIDE => total = self.queued,
            OVERLAPPING => {
                for (place, measure) in &self.queue {
                    if filter.wanted.iter().all(|it| filter.wants(dims, it, place[it.dim])) {
                        total.add(*measure);
                    }
                }
            }
            _ => {}
        }
        let mut noted = std::mem::take(&mut self.noted);
        match self.set.test(dims, &filter) {
            INSIDE => total.join(&self.aggregate),
            OVERLAPPING => noted.push((self.root, self.stamp)),
            _ => {}
        }
        while let Some((cell, stamp)) = noted.pop() {
            let block = &self.cells[cell as usize];
            match &block.body {
                Body::Rows(rows) => rows.total(dims, &filter, &mut total),
                Body::Directory(directory) => {
                    for entry in &directory.entries[..directory.count.min(ENTRIES)] {
                        match entry.set.test(dims, &filter) {
                            INSIDE => total.join(&entry.aggregate),
                            OVERLAPPING => noted.push((entry.child, entry.stamp)),
                            _ => {}
                        }
                    }
                }
            }
            if block.stamp != stamp {
                noted.push((block.right, stamp));
            }
        }
        self.noted = noted;
        self.marks = filter.marks;
        total
    }
}

/// A whole number with or without a sign.
fn number_in(text: &[u8]) -> i64 {
    let digits = |text: &[u8]| text.iter().fold(0i64, |value, digit| 10 * value + (digit - b'0') as i64);
    match text {
        [b'-', rest @ ..] => -digits(rest),
        _ => digits(text),
    }
}

fn put_number(out: &mut Vec<u8>, mut number: u64) {
    let (mut digits, mut at) = ([0u8; 20], 20);
    loop {
        at -= 1;
        digits[at] = b'0' + (number % 10) as u8;
        number /= 10;
        if number == 0 {
            break;
        }
    }
    out.extend_from_slice(&digits[at..]);
}

fn put_answer(out: &mut Vec<u8>, command: u64, answer: &Aggregate) {
    let Aggregate { count, sum, least, greatest } = answer;
    if *count == 0 {
        writeln!(out, "{command} query 0 0 - -").unwrap();
    } else {
        writeln!(out, "{command} query {count} {sum} {least} {greatest}").unwrap();
    }
}

/// The script as far as it is read: its dimensions by their names, then its shard.
struct Run {
    names: HashMap<Vec<u8>, usize>,
    dims: Vec<Dimension>,
    cells: u64,
    shard: Option<Shard>,
    commands: u64,
    events: u64,
    out: Vec<u8>,
}

impl Run {
    /// The shard, which is opened by the first command.
    fn shard(&mut self) -> &mut Shard {
        if self.shard.is_none() {
            let mut dims = std::mem::take(&mut self.dims);
            dims.iter_mut().for_each(Dimension::close);
            self.shard = Some(Shard::new(dims, self.cells));
        }
        self.shard.as_mut().unwrap()
    }

    fn insert<'a>(&mut self, measure: i64, names: impl Iterator<Item = &'a [u8]>) {
        let event = self.events;
        let shard = self.shard();
        let mut place = [0; DIMS];
        for (d, name) in names.enumerate() {
            place[d] = shard.dims[d].ids[name];
        }
        shard.insert(event, &place, measure);
        put_number(&mut self.out, self.commands);
        self.out.extend_from_slice(b" insert ok\n");
    }

    fn query<'a>(&mut self, filters: impl Iterator<Item = &'a [u8]>) {
        let command = self.commands;
        let shard = self.shard();
        let ids = |(d, text): (usize, &[u8])| {
            let dim = &shard.dims[d];
            (text != b"*").then(|| text.split(|byte| *byte == b'|').map(|name| dim.ids[name]).collect())
        };
        let answer = shard.query(filters.enumerate().map(ids).collect());
        put_answer(&mut self.out, command, &answer);
    }

    fn take(&mut self, line: &[u8]) {
        let mut fields = line.split(|byte| *byte == b',');
        match fields.next().unwrap() {
            b"volap" => return,
            b"use" => self.cells = number_in(fields.nth(3).unwrap()) as u64,
            b"dim" => {
                let name = fields.next().unwrap();
                self.names.insert(name.to_vec(), self.dims.len());
                self.dims.push(Dimension::new(number_in(fields.next().unwrap()) as usize));
            }
            b"concept" => {
                let dim = self.names[fields.next().unwrap()];
                let name = fields.next().unwrap();
                self.dims[dim].add(name, fields.next().unwrap());
            }
            b"insert" => {
                self.commands += 1;
                self.insert(number_in(fields.nth(1).unwrap()), fields);
                self.events += 2;
            }
            b"query" => {
                self.commands += 1;
                fields.next();
                self.query(fields);
                self.events += 2;
            }
            other => panic!("no such command here: {}", String::from_utf8_lossy(other)),
        }
    }
}

fn main() {
    let mut text = Vec::new();
    std::io::stdin().read_to_end(&mut text).unwrap();
    let mut run = Run {
        names: HashMap::new(),
        dims: Vec::new(),
        cells: 16384,
        shard: None,
        commands: 0,
        events: 0,
        out: Vec::new(),
    };
    for line in text.split(|byte| *byte == b'\n').filter(|line| !line.is_empty()) {
        run.take(line);
    }
    std::io::stdout().write_all(&run.out).unwrap();
}
