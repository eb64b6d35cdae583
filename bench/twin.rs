// The twin of the program `pair_totals`, in plain Rust: it reads the same frames, does the same
// runs and prints the same line of five sums. Nothing in it is proved.
use std::array::from_fn;
use std::io::{self, Read};
use std::ops::RangeInclusive;

// How many words a set of vertices takes, and how many vertices fit into it.
const WORDS: usize = 4;
const ROOM: usize = 64 * WORDS;

// How many vertices a map may have.
const ORDERS: RangeInclusive<usize> = 1..=200;

// How many vertices are asked for against each later one.
const FIRSTS: usize = 8;

// A set of vertices: bit v % 64 of word v / 64 says whether v is in it.
#[derive(Clone, Copy)]
struct Row([u64; WORDS]);

impl Row {
    const EMPTY: Row = Row([0; WORDS]);

    // Whether v is in the set.
    fn has(&self, v: usize) -> bool {
        (self.0[v / 64] >> (v % 64)) & 1 == 1
    }

    // Puts v in.
    fn insert(&mut self, v: usize) {
        self.0[v / 64] |= 1 << (v % 64);
    }

    // Takes v out.
    fn remove(&mut self, v: usize) {
        self.0[v / 64] &= !(1 << (v % 64));
    }

    // What is in this set or in the other.
    fn or(&self, other: &Row) -> Row {
        Row(from_fn(|i| self.0[i] | other.0[i]))
    }

    // What is in this set and not in the other.
    fn minus(&self, other: &Row) -> Row {
        Row(from_fn(|i| self.0[i] & !other.0[i]))
    }

    // Calls a function on each vertex of the set, in ascending order.
    fn each(&self, mut f: impl FnMut(usize)) {
        for (i, &word) in self.0.iter().enumerate() {
            let mut left = word;
            while left != 0 {
                f(64 * i + left.trailing_zeros() as usize);
                left &= left - 1;
            }
        }
    }
}

// A simple graph: for each vertex, the set of its neighbours.
struct Map {
    order: usize,
    neighbours: [Row; ROOM],
}

impl Map {
    // A map without edges, if it may have so many vertices.
    fn make(order: usize) -> Option<Map> {
        ORDERS.contains(&order).then_some(Map {
            order,
            neighbours: [Row::EMPTY; ROOM],
        })
    }

    // Joins u and v, if they are two vertices.
    fn join(&mut self, u: usize, v: usize) {
        if u < self.order && v < self.order && u != v {
            self.neighbours[u].insert(v);
            self.neighbours[v].insert(u);
        }
    }

    // The rows of the vertices that there are.
    fn rows(&self) -> &[Row] {
        &self.neighbours[..self.order]
    }

    // Whether u and v are joined.
    fn joined(&self, u: usize, v: usize) -> bool {
        self.neighbours[u].has(v)
    }
}

// What a flow leaves of a digraph. A node is a vertex v, or v + ROOM on a second side; all steps
// from a node end on one side, so a row of vertices is enough for them.
trait Residual {
    // The side that the residual steps from p end on, and where they end.
    fn steps(&self, p: usize) -> (usize, &Row);

    // Pushes one unit along the step from p to q.
    fn push(&mut self, p: usize, q: usize);
}

// The residual graph of a flow in which every edge is used once at most, either way.
struct ByEdges {
    rows: [Row; ROOM],
}

impl ByEdges {
    // Takes up a map, with no flow.
    fn reset(&mut self, map: &Map) {
        self.rows[..map.order].copy_from_slice(map.rows());
    }
}

impl Residual for ByEdges {
    // To the neighbours that the flow does not go to.
    fn steps(&self, p: usize) -> (usize, &Row) {
        (0, &self.rows[p])
    }

    // An unused edge can then only be stepped back along; one used the other way is free again.
    fn push(&mut self, p: usize, q: usize) {
        if self.rows[q].has(p) {
            self.rows[p].remove(q);
        } else {
            self.rows[q].insert(p);
        }
    }
}

// The residual graph of a flow in which every vertex is used once at most. The entry of v is
// node v, its exit node v + ROOM. Steps from an entry end at exits: its own, or back where the
// flow comes from. Steps from an exit end at entries. A run starts at an exit and ends at an
// entry, so its two ends are not split.
struct ByVertices {
    rows: [Row; 2 * ROOM],
}

impl ByVertices {
    // Takes up a map, with no flow.
    fn reset(&mut self, map: &Map) {
        let (entries, exits) = self.rows.split_at_mut(ROOM);
        exits[..map.order].copy_from_slice(map.rows());
        for (v, row) in entries[..map.order].iter_mut().enumerate() {
            *row = Row::EMPTY;
            row.insert(v);
        }
    }
}

impl Residual for ByVertices {
    // From an entry to exits, and from an exit to entries.
    fn steps(&self, p: usize) -> (usize, &Row) {
        ((p < ROOM) as usize, &self.rows[p])
    }

    // The step can then only be taken back.
    fn push(&mut self, p: usize, q: usize) {
        self.rows[p].remove(q % ROOM);
        self.rows[q].insert(p % ROOM);
    }
}

// A breadth-first search: the marked vertices of each side, the node that each was found from,
// and the line of the nodes found.
struct Search {
    marks: [Row; 2],
    before: [u16; 2 * ROOM],
    line: [u16; 2 * ROOM],
    found: usize,
}

impl Search {
    // A search that has found nothing.
    fn new() -> Search {
        Search {
            marks: [Row::EMPTY; 2],
            before: [0; 2 * ROOM],
            line: [0; 2 * ROOM],
            found: 0,
        }
    }

    // Forgets what was found, and starts at a node.
    fn start(&mut self, from: usize) {
        self.marks = [Row::EMPTY; 2];
        self.marks[from / ROOM].insert(from % ROOM);
        self.line[0] = from as u16;
        self.found = 1;
    }

    // Marks the nodes of a row on a side that are not marked yet, found from p, and lines them up.
    fn enter(&mut self, p: usize, side: usize, row: &Row) {
        let fresh = row.minus(&self.marks[side]);
        self.marks[side] = self.marks[side].or(&fresh);
        let mut found = self.found;
        fresh.each(|v| {
            let q = side * ROOM + v;
            self.before[q] = p as u16;
            self.line[found] = q as u16;
            found += 1;
        });
        self.found = found;
    }

    // Marks what is reached by residual steps, and leaves off once the goal is a step away.
    fn reaches(&mut self, residual: &impl Residual, from: usize, goal: usize) -> bool {
        self.start(from);
        let mut looked_at = 0;
        while looked_at < self.found {
            let p = self.line[looked_at] as usize;
            looked_at += 1;
            let (side, row) = residual.steps(p);
            if side == goal / ROOM && row.has(goal % ROOM) {
                self.before[goal] = p as u16;
                return true;
            }
            self.enter(p, side, row);
        }
        false
    }

    // Pushes one unit along the path that was found, from its end back.
    fn push(&self, residual: &mut impl Residual, from: usize, goal: usize) {
        let mut q = goal;
        while q != from {
            let p = self.before[q] as usize;
            residual.push(p, q);
            q = p;
        }
    }

    // Pushes as many units as can be, and says how many. The marks are then the residual side.
    fn run(&mut self, residual: &mut impl Residual, from: usize, goal: usize) -> u64 {
        let mut value = 0;
        while self.reaches(residual, from, goal) {
            self.push(residual, from, goal);
            value += 1;
        }
        value
    }
}

// The sum of the edges that leave a side, each as lower * 256 + higher.
fn sum_edge_cut(map: &Map, side: &Row) -> u64 {
    let mut sum = 0;
    side.each(|u| {
        map.neighbours[u]
            .minus(side)
            .each(|v| sum += (u.min(v) * 256 + u.max(v)) as u64);
    });
    sum
}

// The sum of the vertices at which arcs leave a side that has the exit of a: entered and not left,
// or neighbours of a and not entered.
fn sum_vertex_cut(map: &Map, a: usize, [entries, exits]: &[Row; 2]) -> u64 {
    let mut sum = 0;
    entries
        .minus(exits)
        .or(&map.neighbours[a].minus(entries))
        .each(|v| sum += v as u64);
    sum
}

// What is added up: pairs and their edge values, unjoined pairs and their vertex values, and the
// items of all cuts as numbers.
#[derive(Default)]
struct Totals {
    pairs: u64,
    edge_values: u64,
    unjoined: u64,
    vertex_values: u64,
    items: u64,
}

// The memory of all runs, one after another.
struct Work {
    by_edges: ByEdges,
    by_vertices: ByVertices,
    search: Search,
}

impl Work {
    // The memory, before any run.
    fn new() -> Work {
        Work {
            by_edges: ByEdges {
                rows: [Row::EMPTY; ROOM],
            },
            by_vertices: ByVertices {
                rows: [Row::EMPTY; 2 * ROOM],
            },
            search: Search::new(),
        }
    }

    // Adds a pair by edges.
    fn add_edges(&mut self, map: &Map, a: usize, b: usize, totals: &mut Totals) {
        self.by_edges.reset(map);
        totals.pairs += 1;
        totals.edge_values += self.search.run(&mut self.by_edges, a, b);
        totals.items += sum_edge_cut(map, &self.search.marks[0]);
    }

    // Adds an unjoined pair by vertices.
    fn add_vertices(&mut self, map: &Map, a: usize, b: usize, totals: &mut Totals) {
        self.by_vertices.reset(map);
        totals.unjoined += 1;
        totals.vertex_values += self.search.run(&mut self.by_vertices, a + ROOM, b);
        totals.items += sum_vertex_cut(map, a, &self.search.marks);
    }
}

// Adds up the pairs of a map.
fn add_up(map: &Map) -> Totals {
    let mut work = Work::new();
    let mut totals = Totals::default();
    for a in 0..FIRSTS {
        for b in a + 1..map.order {
            work.add_edges(map, a, b, &mut totals);
            if !map.joined(a, b) {
                work.add_vertices(map, a, b, &mut totals);
            }
        }
    }
    totals
}

// Byte k of a frame in hexadecimal.
fn byte(frame: &str, k: usize) -> Option<usize> {
    usize::from_str_radix(frame.get(2 * k..2 * k + 2)?, 16).ok()
}

// The map that a text of frames makes, if it makes one: a make, and then joins.
fn read_map(text: &str) -> Option<Map> {
    let mut frames = text.lines();
    let make = frames.next().filter(|frame| byte(frame, 0) == Some(1))?;
    let mut map = Map::make(byte(make, 1)?)?;
    for frame in frames {
        if let [Some(2), Some(u), Some(v)] = from_fn(|k| byte(frame, k)) {
            map.join(u, v);
        }
    }
    Some(map)
}

// Prints the sums of the map on standard input.
fn main() -> io::Result<()> {
    let mut text = String::new();
    io::stdin().read_to_string(&mut text)?;
    match read_map(&text).map(|map| add_up(&map)) {
        Some(t) => println!(
            "{} {} {} {} {}",
            t.pairs, t.edge_values, t.unjoined, t.vertex_values, t.items
        ),
        None => println!("no map"),
    }
    Ok(())
}
