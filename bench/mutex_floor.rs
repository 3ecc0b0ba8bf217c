//! What the table of parts is measured against: plain Rust, std alone, that locks an uncontended
//! `Mutex<Box<u64>>`, adds one and unlocks it, as often as the first argument says, and prints the number.
//!
//!     rustc -O -o mutex_floor mutex_floor.rs && ./mutex_floor 1000

use std::hint::black_box;
use std::sync::Mutex;

fn add(number: &Mutex<Box<u64>>) {
    let mut held = black_box(number).lock().unwrap();
    **held = held.wrapping_add(1);
}

fn main() {
    let rounds = std::env::args().nth(1).and_then(|word| word.parse::<u64>().ok()).unwrap_or(0);
    let number = Mutex::new(Box::new(0));
    for _ in 0..rounds {
        add(&number);
    }
    println!("{}", number.lock().unwrap());
}
