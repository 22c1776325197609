//! Generated tables, each made once, however many tests look at it: those of full size
//! take long to make.

use std::sync::OnceLock;

use reference::{generate, Tables};

/// By seed: those that tests look at are below 10,000.
type Made = [OnceLock<Tables>; 10_000];

const NONE: Made = [const { OnceLock::new() }; 10_000];

pub fn case(seed: u64) -> Tables {
    static MADE: Made = NONE;
    once(&MADE, generate::case, seed)
}

pub fn compared(seed: u64) -> Tables {
    static MADE: Made = NONE;
    once(&MADE, generate::compared, seed)
}

pub fn few(seed: u64) -> Tables {
    static MADE: Made = NONE;
    once(&MADE, generate::few, seed)
}

pub fn filled(seed: u64) -> Tables {
    static MADE: Made = NONE;
    once(&MADE, generate::filled, seed)
}

pub fn full(seed: u64) -> Tables {
    static MADE: Made = NONE;
    once(&MADE, generate::full, seed)
}

fn once(made: &Made, make: fn(u64) -> Tables, seed: u64) -> Tables {
    made[seed as usize].get_or_init(|| make(seed)).clone()
}
