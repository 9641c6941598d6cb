//! Makes what is timed: a printed book, queries, and a full board of notices, all by one fixed generator.
//! books DIR QUAYS SAILINGS writes DIR/book.img, DIR/queries and DIR/notices.
use std::fmt::Write;

const QUERIES: usize = 300;
const RUNS_WITHHELD: usize = 64;
const QUAYS_SHUT: usize = 32;
const RUNS: u32 = 200;
const LEGS: u32 = 4;
const DAY: u32 = 1440;

/// A linear congruential generator, of which the high bits are used.
struct Lots(u64);

impl Lots {
    fn below(&mut self, n: u32) -> u32 {
        self.0 = self.0.wrapping_mul(6364136223846793005).wrapping_add(1442695040888963407);
        ((self.0 >> 33) % u64::from(n)) as u32
    }
}

fn two(image: &mut Vec<u8>, number: u32) {
    image.extend_from_slice(&(number as u16).to_le_bytes());
}

fn book(lots: &mut Lots, quays: u32, sailings: u32) -> Vec<u8> {
    let mut image = Vec::new();
    for number in [14, 1, quays, sailings, 0, 0, 0, 0] {
        two(&mut image, number);
    }
    for quay in 0..quays {
        for number in [14, 3, 1 + lots.below(10)] {
            two(&mut image, number);
        }
        image.extend_from_slice(format!("Quay {quay:<5}").as_bytes());
    }
    for place in 0..sailings {
        let from = place * quays / sailings;
        let to = (from + 1 + lots.below(quays - 1)) % quays;
        let dep = lots.below(DAY);
        let arr = (dep + 5 + lots.below(120)) % DAY;
        for number in [14, 4, lots.below(RUNS), lots.below(LEGS), from, to, dep, arr] {
            two(&mut image, number);
        }
    }
    image
}

fn queries(lots: &mut Lots, quays: u32) -> String {
    let mut text = String::new();
    for _ in 0..QUERIES {
        let (from, to) = (lots.below(quays), lots.below(quays));
        let (minute, class) = (lots.below(DAY), lots.below(8));
        writeln!(text, "{from} {to} {minute} {class}").unwrap();
    }
    text
}

/// Runs and quays spread over the book, one to a line after its kind: 0 withholds a run, 1 shuts a quay.
/// Where a book has not twice as many quays as can be shut, half of its quays are shut.
fn notices(quays: u32) -> String {
    let mut text = String::new();
    for i in 0..RUNS_WITHHELD {
        writeln!(text, "0 {}", i * RUNS as usize / RUNS_WITHHELD).unwrap();
    }
    let shut = QUAYS_SHUT.min(quays as usize / 2);
    for i in 0..shut {
        writeln!(text, "1 {}", i * quays as usize / shut).unwrap();
    }
    text
}

fn main() -> std::io::Result<()> {
    let args: Vec<String> = std::env::args().collect();
    let [_, dir, quays, sailings] = &args[..] else {
        panic!("books DIR QUAYS SAILINGS");
    };
    let (quays, sailings): (u32, u32) = (quays.parse().unwrap(), sailings.parse().unwrap());
    let mut lots = Lots(u64::from(quays) << 32 | u64::from(sailings));
    std::fs::create_dir_all(dir)?;
    std::fs::write(format!("{dir}/book.img"), book(&mut lots, quays, sailings))?;
    std::fs::write(format!("{dir}/queries"), queries(&mut lots, quays))?;
    std::fs::write(format!("{dir}/notices"), notices(quays))
}
