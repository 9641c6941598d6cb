//! The measure: a plain Rust program, with no proof, that routes over the same books by the same rules.
//! Dijkstra over sailings with std's BinaryHeap. plain DIR [ROUNDS] answers DIR/queries over DIR/book.img without notices and
//! with those of DIR/notices; it writes the answers' sums to stdout and the least time to stderr.
//!
//! It is timed twice. As `plain` it has rows by quay, made at opening. As `lists` it has besides, for each row, the rows that
//! continue it, so that a later arrival at a quay looks at no other. Neither is timed at opening.
//! Notices are the cheapest for a route that they can be: the tables are made again from the sailings in force.
use std::cmp::Reverse;
use std::collections::BinaryHeap;
use std::time::Instant;

const DAY: u32 = 1440;
const FAR: u32 = u32::MAX;
const FIRST: u16 = u16::MAX;
const CLASS_MINUTES: [u32; 8] = [0, 5, 10, 15, 20, 25, 30, 45];

#[derive(Clone, Copy)]
struct Sailing {
    run: u16,
    leg: u16,
    from: u16,
    to: u16,
    dep: u16,
    arr: u16,
    place: u16,
}

impl Sailing {
    fn continues(&self, before: &Sailing) -> bool {
        self.run == before.run && self.leg == before.leg + 1 && self.from == before.to
    }

    fn minutes(&self) -> u32 {
        let (dep, arr) = (u32::from(self.dep), u32::from(self.arr));
        if arr < dep { arr + DAY - dep } else { arr - dep }
    }

    fn next(&self, minute: u32) -> u32 {
        let of_day = minute % DAY;
        let dep = u32::from(self.dep);
        minute + if dep < of_day { dep + DAY - of_day } else { dep - of_day }
    }
}

/// Lists one after another, with where each begins.
struct Lists {
    first: Vec<u32>,
    items: Vec<u16>,
}

impl Lists {
    fn of(&self, i: usize) -> &[u16] {
        &self.items[self.first[i] as usize..self.first[i + 1] as usize]
    }
}

struct Book {
    changes: Vec<u32>,
    rows: Vec<Sailing>,
    first: Vec<u32>,
    continuing: Lists,
}

fn number(bytes: &[u8], at: usize) -> u16 {
    u16::from_le_bytes([bytes[at], bytes[at + 1]])
}

fn read(image: &[u8]) -> (Vec<u32>, Vec<Sailing>) {
    let quays = number(image, 4) as usize;
    let changes = (0..quays).map(|q| u32::from(number(image, 16 * (1 + q) + 4))).collect();
    let rows = (0..number(image, 6)).map(|place| {
        let at = 16 * (1 + quays + place as usize);
        Sailing {
            run: number(image, at + 4),
            leg: number(image, at + 6),
            from: number(image, at + 8),
            to: number(image, at + 10),
            dep: number(image, at + 12),
            arr: number(image, at + 14),
            place,
        }
    });
    (changes, rows.collect())
}

impl Book {
    fn new(changes: Vec<u32>, rows: Vec<Sailing>) -> Book {
        let first = (0..=changes.len())
            .map(|q| rows.partition_point(|s| (s.from as usize) < q) as u32)
            .collect::<Vec<_>>();
        let mut continuing = Lists { first: vec![0], items: Vec::new() };
        for row in &rows {
            let span = first[row.to as usize]..first[row.to as usize + 1];
            continuing.items.extend(span.filter(|&i| rows[i as usize].continues(row)).map(|i| i as u16));
            continuing.first.push(continuing.items.len() as u32);
        }
        Book { changes, rows, first, continuing }
    }

    fn rows_from(&self, quay: u16) -> std::ops::Range<usize> {
        self.first[quay as usize] as usize..self.first[quay as usize + 1] as usize
    }
}

#[derive(Clone, Copy)]
struct Label {
    leaves: u32,
    arrives: u32,
    via: u16,
}

#[derive(Clone, Copy)]
struct Query {
    from: u16,
    to: u16,
    minute: u32,
    class: usize,
}

#[allow(dead_code)]
#[derive(Clone, Copy)]
struct Leg {
    place: u16,
    leaves: u32,
    arrives: u32,
}

/// The buffers of a route, used again for the next.
struct Router {
    labels: Vec<Label>,
    open: Vec<bool>,
    heap: BinaryHeap<Reverse<(u32, u16)>>,
    legs: Vec<Leg>,
}

impl Router {
    fn new(book: &Book) -> Router {
        Router {
            labels: vec![Label { leaves: FAR, arrives: FAR, via: FIRST }; book.rows.len()],
            open: vec![false; book.changes.len()],
            heap: BinaryHeap::new(),
            legs: Vec::new(),
        }
    }

    #[inline(always)]
    fn relax(&mut self, s: &Sailing, row: u16, due: u32, via: u16) {
        let leaves = s.next(due);
        let arrives = leaves + s.minutes();
        let label = &mut self.labels[row as usize];
        if arrives < label.arrives {
            *label = Label { leaves, arrives, via };
            self.heap.push(Reverse((arrives, row)));
        }
    }

    /// The first to reach a quay relaxes all that leaves it.
    fn open_quay(&mut self, book: &Book, quay: u16, due: u32, via: u16) {
        self.open[quay as usize] = true;
        for row in book.rows_from(quay) {
            self.relax(&book.rows[row], row as u16, due, via);
        }
    }

    /// Relaxes what continues a row.
    fn follow<const LISTS: bool>(&mut self, book: &Book, row: u16, arrives: u32) {
        if LISTS {
            for &next in book.continuing.of(row as usize) {
                self.relax(&book.rows[next as usize], next, arrives, row);
            }
            return;
        }
        let ridden = book.rows[row as usize];
        for next in book.rows_from(ridden.to) {
            let s = &book.rows[next];
            if s.continues(&ridden) {
                self.relax(s, next as u16, arrives, row);
            }
        }
    }

    fn write_legs(&mut self, book: &Book, last: u16) {
        self.legs.clear();
        let mut at = last;
        while at != FIRST {
            let label = self.labels[at as usize];
            self.legs.push(Leg {
                place: book.rows[at as usize].place,
                leaves: label.leaves,
                arrives: label.arrives,
            });
            at = label.via;
        }
        self.legs.reverse();
    }

    fn route<const LISTS: bool>(&mut self, book: &Book, q: Query) -> Option<u32> {
        self.legs.clear();
        if q.from == q.to {
            return Some(q.minute);
        }
        self.labels.fill(Label { leaves: FAR, arrives: FAR, via: FIRST });
        self.open.fill(false);
        self.heap.clear();
        self.open_quay(book, q.from, q.minute, FIRST);
        while let Some(Reverse((arrives, row))) = self.heap.pop() {
            if arrives > self.labels[row as usize].arrives {
                continue;
            }
            let to = book.rows[row as usize].to;
            if to == q.to {
                self.write_legs(book, row);
                return Some(arrives);
            }
            if !self.open[to as usize] {
                let due = arrives + book.changes[to as usize] + CLASS_MINUTES[q.class];
                self.open_quay(book, to, due, row);
            }
            self.follow::<LISTS>(book, row, arrives);
        }
        None
    }
}

fn numbers(text: &str) -> impl Iterator<Item = Vec<u32>> + '_ {
    text.lines().map(|line| line.split(' ').map(|n| n.parse().unwrap()).collect())
}

/// Answers every query in each round; tells the sums of the last, and the mean over the queries of the least time of each.
fn rounds<const LISTS: bool>(book: &Book, queries: &[Query], count: usize) -> (u64, u64, u128) {
    let mut router = Router::new(book);
    let mut least = vec![u128::MAX; queries.len()];
    let (mut sum, mut none) = (0u64, 0u64);
    for _ in 0..count {
        (sum, none) = (0, 0);
        for (q, least) in queries.iter().zip(&mut least) {
            let start = Instant::now();
            let answer = router.route::<LISTS>(book, *q);
            *least = start.elapsed().as_nanos().min(*least);
            match answer {
                Some(arrival) => sum += u64::from(arrival),
                None => none += 1,
            }
        }
    }
    (none, sum, least.iter().sum::<u128>() / queries.len() as u128)
}

fn both(name: &str, book: &Book, queries: &[Query], count: usize) {
    let (none, sum, plain) = rounds::<false>(book, queries, count);
    let (none_again, sum_again, lists) = rounds::<true>(book, queries, count);
    assert_eq!((none, sum), (none_again, sum_again));
    println!("{name}: queries {} none {none} sum {sum}", queries.len());
    eprintln!("{name}: {plain} ns\n{name} lists: {lists} ns");
}

fn main() -> std::io::Result<()> {
    let dir = std::env::args().nth(1).expect("plain DIR [ROUNDS]");
    let count = std::env::args().nth(2).map_or(20, |n| n.parse().unwrap());
    let (changes, rows) = read(&std::fs::read(format!("{dir}/book.img"))?);
    let queries: Vec<Query> = numbers(&std::fs::read_to_string(format!("{dir}/queries"))?)
        .map(|n| Query { from: n[0] as u16, to: n[1] as u16, minute: n[2], class: n[3] as usize })
        .collect();
    let notices: Vec<Vec<u32>> = numbers(&std::fs::read_to_string(format!("{dir}/notices"))?).collect();
    let noticed = |kind: u32, number: u16| notices.contains(&vec![kind, u32::from(number)]);
    let in_force = |s: &&Sailing| !noticed(0, s.run) && !noticed(1, s.from) && !noticed(1, s.to);
    let left = rows.iter().filter(in_force).copied().collect();
    both("free", &Book::new(changes.clone(), rows.clone()), &queries, count);
    both("full", &Book::new(changes, left), &queries, count);
    Ok(())
}
