// The same loops over plain atomics: a word of a row, a store of one, and a pin with its leave.
use std::hint::black_box;
use std::sync::Arc;
use std::sync::atomic::{AtomicU64, Ordering::SeqCst};
use std::time::Instant;

const ROWS: usize = 16_384;
const ROUNDS: u64 = 400_000;

#[inline(never)]
fn words(table: &[AtomicU64], pins: usize, row: usize) -> u64 {
    let mut sum = 0u64;
    for _ in 0..ROUNDS {
        for place in 0..256 {
            let at = 1 + pins + (row - 1) * 256 + place;
            sum = sum.wrapping_add(unsafe { table.get_unchecked(at) }.load(SeqCst));
        }
    }
    sum
}

// Each place is made of the word before.
#[inline(never)]
fn chain(table: &[AtomicU64], pins: usize, row: usize) -> u64 {
    let mut place = 0u8;
    for _ in 0..ROUNDS * 100 {
        let at = 1 + pins + (row - 1) * 256 + usize::from(place);
        let word = unsafe { table.get_unchecked(at) }.load(SeqCst);
        place = place.wrapping_add(1).wrapping_add((word % 256) as u8);
    }
    u64::from(place)
}

// The table is behind an `Arc` that a value holds, as a pin does.
struct Behind {
    table: Arc<Vec<AtomicU64>>,
    pins: usize,
}

#[inline(never)]
fn words_behind(pin: &mut Behind, row: usize) -> u64 {
    let mut sum = 0u64;
    for _ in 0..ROUNDS {
        for place in 0..256 {
            let at = 1 + pin.pins + (row - 1) * 256 + place;
            sum = sum.wrapping_add(unsafe { pin.table.get_unchecked(at) }.load(SeqCst));
        }
    }
    sum
}

#[inline(never)]
fn stores(table: &[AtomicU64], pins: usize, row: usize) {
    for round in 0..ROUNDS / 10 {
        for place in 0..256 {
            let at = 1 + pins + (row - 1) * 256 + place;
            unsafe { table.get_unchecked(at) }.store(round, SeqCst);
        }
    }
}

#[inline(never)]
fn pins_and_leaves(table: &[AtomicU64], number: usize) -> u64 {
    let mut sum = 0u64;
    for _ in 0..ROUNDS * 10 {
        let hint = unsafe { table.get_unchecked(0) }.load(SeqCst) / 16_777_216;
        unsafe { table.get_unchecked(1 + number) }.store(hint + 1, SeqCst);
        sum = sum.wrapping_add(unsafe { table.get_unchecked(0) }.load(SeqCst) / 16_777_216);
        unsafe { table.get_unchecked(1 + number) }.store(0, SeqCst);
    }
    sum
}

fn main() {
    let start = Instant::now();
    let table: Arc<Vec<AtomicU64>> = Arc::new((0..1 + 64 + 512 * ROWS).map(|_| AtomicU64::new(0)).collect());
    table[0].store(1, SeqCst);
    println!("new {} ms", start.elapsed().as_millis());
    let (pins, row, number) = (black_box(64), black_box(1), black_box(0));
    let start = Instant::now();
    stores(&table, pins, row + 1);
    println!("store {} us", start.elapsed().as_micros());
    let start = Instant::now();
    let sum = words(&table, pins, row);
    println!("word {} us {sum}", start.elapsed().as_micros());
    let mut behind = Behind { table: table.clone(), pins };
    let start = Instant::now();
    let sum = words_behind(&mut behind, row);
    println!("behind {} us {sum}", start.elapsed().as_micros());
    let start = Instant::now();
    let sum = chain(&table, pins, row);
    println!("chain {} us {sum}", start.elapsed().as_micros());
    let start = Instant::now();
    let sum = pins_and_leaves(&table, number);
    println!("pin {} us {sum}", start.elapsed().as_micros());
}
