//! All tests, in one program: what they share is compiled once, and a generated case
//! that several of them look at is made once (`common::made`).

mod berths;
mod cases;
mod common;
mod demands;
mod exactly_one;
mod few;
mod filled;
mod find;
mod generated_few;
mod generated_filled;
mod generated_kinds;
mod generator;
mod kinds;
mod mutations;
mod page;
mod repeats;
mod stored;
mod text;
mod wrong_ships;
