//! Random cases for comparing two implementations. A seed gives a case, the
//! same everywhere.

mod build;
mod damage;
mod fault;
mod feature_ranges;
mod few;
mod filled;
mod kinds;
mod mutate;
mod repeat;
mod room;
mod wall;
mod wanted;

pub use build::Size;
pub use damage::{damage, lengthened};
pub use fault::{
    is_crossed, lengths_are_sound, more_comparisons, outcome, outcome_in, Limit, LIMITS,
};
pub use few::{COUNTS, FORMS};
pub use mutate::mutate;
pub use repeat::{delay, has_repeat, most_often, without_repeats, Kept};
pub use room::{page_room, page_room_by, Room, ROOMS};
pub use wall::DIGITS;
pub use wanted::{wanted, wanted_by, Aim, Answer, AIMS};

use crate::file;
use crate::random::Random;
use crate::refusal::is_of_typing;
use crate::tables::Tables;

/// The families of cases.
#[derive(Clone, Copy, Debug, PartialEq, Eq)]
pub enum Family {
    /// Accepted, with real variation.
    Accepted,
    /// One fault, aimed at one limit of one check.
    Fault,
    /// Several faults at once.
    Several,
    /// All tables full; accepted or with a fault.
    Full,
    /// Small tables, accepted or with a fault.
    Small,
    /// One attribute over and over, up to 512 entries; accepted or with a fault.
    Repeats,
    /// Accepted, aimed at the limits of the wall page.
    Wall,
    /// Columns of more than one kind; accepted or with a fault that has to do with
    /// kinds.
    Compared,
    /// Exactly so many permitted configurations and forms, few or many; accepted or with
    /// typing faults.
    Few,
    /// Reports without some of the schema's conditions: what the filled reading fills in,
    /// and what it refuses.
    Filled,
}

/// The family of a name.
pub fn family_of(name: &str) -> Option<Family> {
    match name {
        "accepted" => Some(Family::Accepted),
        "fault" => Some(Family::Fault),
        "several" => Some(Family::Several),
        "full" => Some(Family::Full),
        "small" => Some(Family::Small),
        "repeats" => Some(Family::Repeats),
        "wall" => Some(Family::Wall),
        "compared" => Some(Family::Compared),
        "few" => Some(Family::Few),
        "filled" => Some(Family::Filled),
        _ => None,
    }
}

/// The harbour file of tables. Where it needs no kind lines, the seed says whether it
/// has them.
pub fn text_of(seed: u64, tables: &Tables) -> Vec<u8> {
    match Random::new(seed).chance(1, 2) {
        true => file::write_file(tables),
        false => file::write_file_with_kinds(tables),
    }
}

/// A case of a family chosen by the seed.
pub fn case(seed: u64) -> Tables {
    let mut random = Random::new(!seed);
    let family = match random.below(100) {
        0..=47 => Family::Accepted,
        48..=50 => Family::Few,
        51..=53 => Family::Compared,
        54..=55 => Family::Wall,
        56..=81 => Family::Fault,
        82..=87 => Family::Several,
        88..=90 => Family::Full,
        91..=92 => Family::Repeats,
        _ => Family::Small,
    };
    // By a draw of its own: all other seeds give what they gave before there was this
    // family.
    match random.chance(1, 20) {
        true => filled(seed),
        false => of_family(family, seed),
    }
}

/// A case of the given family.
pub fn of_family(family: Family, seed: u64) -> Tables {
    match family {
        Family::Accepted => accepted(seed),
        Family::Fault => fault(seed),
        Family::Several => several(seed),
        Family::Full => full(seed),
        Family::Small => small(seed),
        Family::Repeats => repeats(seed),
        Family::Wall => wall(seed),
        Family::Compared => compared(seed),
        Family::Few => few(seed),
        Family::Filled => filled(seed),
    }
}

/// Tables that are accepted, with real variation.
pub fn accepted(seed: u64) -> Tables {
    let mut random = Random::new(seed);
    let size = any_size(&mut random);
    build::accepted(&mut random, size)
}

/// Tables with one fault of some number that tables alone can have.
pub fn fault(seed: u64) -> Tables {
    let mut random = Random::new(seed);
    let size = any_size(&mut random);
    let sound = build::accepted(&mut random, size);
    let number = any_number(&mut random);
    fault::aimed(&mut random, &sound, number)
}

/// Tables with several faults.
pub fn several(seed: u64) -> Tables {
    let mut random = Random::new(seed);
    let size = any_size(&mut random);
    let sound = build::accepted(&mut random, size);
    match random.below(3) {
        0 => fault::several(&mut random, &sound),
        1 => fault::several_of_typing(&mut random, &sound),
        _ => fault::crossed(&mut random, &sound),
    }
}

/// Tables of full size, accepted or with a fault.
pub fn full(seed: u64) -> Tables {
    let mut random = Random::new(seed);
    let size = Size {
        features: 10,
        attributes: 64,
        expressions: 256,
        entries: 512,
        relations: 32,
        comparisons: 256,
        queries: 256,
        full: true,
    };
    let sound = build::accepted(&mut random, size);
    match random.below(4) {
        0 => {
            let number = any_number(&mut random);
            fault::aimed(&mut random, &sound, number)
        }
        1 => fault::several_of_typing(&mut random, &sound),
        _ => sound,
    }
}

/// Tables that list one attribute over and over, accepted or with a fault. There
/// is room left for the repeat of a fault.
pub fn repeats(seed: u64) -> Tables {
    let mut random = Random::new(seed);
    let size = match random.below(3) {
        0 => size_of_one_attribute(&mut random),
        1 => small_size(&mut random, 2),
        _ => any_size(&mut random),
    };
    let mut tables = build::accepted(&mut random, size);
    let sound = random.chance(2, 3);
    let most = if sound { 512 } else { 510 };
    repeat::fill_up(&mut random, &mut tables, most);
    match sound {
        true => tables,
        false => {
            let number = random.pick(&[14, 16, 17, 17, 18, 19, 25]);
            fault::aimed(&mut random, &tables, number)
        }
    }
}

/// Tables aimed at the limits of the wall page. All are accepted.
pub fn wall(seed: u64) -> Tables {
    wall::tables(&mut Random::new(seed))
}

/// Tables with exactly so many permitted configurations and forms, few or many. They are
/// accepted, or refused by a typing fault.
pub fn few(seed: u64) -> Tables {
    few::tables(&mut Random::new(seed))
}

/// Tables without some of the schema's conditions. They get as far as typing; each reading
/// accepts or refuses them.
pub fn filled(seed: u64) -> Tables {
    filled::tables(&mut Random::new(seed))
}

/// Tables with columns of more than one kind, as far as some tries give it, accepted or
/// with a fault that has to do with kinds.
pub fn compared(seed: u64) -> Tables {
    let mut random = Random::new(seed);
    let sound = of_two_kinds(&mut random, any_size);
    match random.chance(1, 4) {
        true => sound,
        false => fault::of_kinds(&mut random, &sound),
    }
}

/// Accepted tables with columns of more than one kind, as far as some tries give it.
fn of_two_kinds(random: &mut Random, size: fn(&mut Random) -> Size) -> Tables {
    let mut tables = Tables::default();
    for _ in 0..30 {
        let size = size(random);
        tables = build::accepted(random, size);
        if fault::has_two_kinds(&tables) {
            break;
        }
    }
    tables
}

/// Small tables, accepted or refused.
pub fn small(seed: u64) -> Tables {
    let mut random = Random::new(seed);
    match random.chance(1, 2) {
        true => small_accepted(&mut random),
        false => {
            let number = any_number(&mut random);
            small_refused(&mut random, number)
        }
    }
}

/// Small tables that are accepted.
pub fn small_accepted(random: &mut Random) -> Tables {
    let size = small_size(random, 0);
    build::accepted(random, size)
}

/// Small tables that are refused by the given number, of those that tables alone can
/// have, as far as some tries give it.
pub fn small_refused(random: &mut Random, number: u64) -> Tables {
    let mut tables = Tables::default();
    for _ in 0..50 {
        let mut size = small_size(random, 2);
        let way = random.below(8);
        if way < 4 {
            // More than one fault is to come on top.
            size.queries = 3;
            size.comparisons = 1;
        }
        let sound = match number {
            25 => of_two_kinds(random, |random| small_size(random, 2)),
            _ => build::accepted(random, size),
        };
        tables = match way {
            0 => fault::several(random, &sound),
            1..=3 if is_of_typing(number) => fault::crossed(random, &sound),
            _ => fault::aimed(random, &sound, number),
        };
        if is_small(&tables) && outcome(&tables) == number {
            break;
        }
    }
    tables
}

/// Small tables that break the given limit, as far as some tries give it.
pub fn small_limit(random: &mut Random, limit: &Limit) -> Tables {
    for _ in 0..80 {
        let size = small_size(random, 2);
        let mut tables = build::accepted(random, size);
        if (limit.apply)(random, &mut tables).is_some()
            && is_small(&tables)
            && outcome(&tables) == limit.number
        {
            return tables;
        }
    }
    small_refused(random, limit.number)
}

/// Small tables that the filled reading refuses by the number of a typing fault, or, by 0,
/// accepts, as far as some tries give it. Most are judged otherwise by the strict one.
pub fn small_filled(random: &mut Random, number: u64) -> Tables {
    filled::small(random, number)
}

/// The bounds of a small case. Heads may be over, when 1 or 4 is the matter.
pub fn is_small(tables: &Tables) -> bool {
    let most = [6, 8, 3, 4, 7];
    let few = |table: usize| tables.count(table) <= most[table];
    let kinds = tables.kinds.len() <= 65;
    let configurations = tables.features <= 3 || tables.features > 10;
    let attributes = tables.attributes <= 4 || tables.attributes > 64;
    configurations && attributes && kinds && (0..5).all(few)
}

/// A size in the bounds of a small case, with room left for a fault.
fn small_size(random: &mut Random, room: usize) -> Size {
    Size {
        features: random.pick(&[0, 1, 1, 2, 2, 2, 2, 3, 3]),
        attributes: random.pick(&[0, 1, 2, 2, 3, 3, 3, 4, 4]),
        expressions: 6 - room.min(random.below(3)),
        entries: 8 - room.min(random.below(4)),
        relations: 3 - room.min(random.below(2)),
        comparisons: 4 - room,
        queries: 7 - room - room.min(random.below(3)),
        full: false,
    }
}

/// A size with one attribute, so that all entries are of it.
fn size_of_one_attribute(random: &mut Random) -> Size {
    Size {
        features: random.between(1, 10),
        attributes: 1,
        expressions: random.between(12, 40),
        entries: 8,
        relations: 1,
        comparisons: 1,
        queries: random.between(1, 4),
        full: false,
    }
}

/// The numbers of refusal that tables alone can have, in the order of the checks.
pub const NUMBERS: [u64; 20] = [
    1, 2, 3, 4, 5, 6, 7, 8, 9, 10, 24, 12, 13, 14, 15, 16, 17, 18, 19, 25,
];

/// Any of them; those of many limits come more often.
fn any_number(random: &mut Random) -> u64 {
    if random.chance(1, 2) {
        return LIMITS[random.below(LIMITS.len())].number;
    }
    random.pick(&NUMBERS)
}

/// Any size but the full one.
fn any_size(random: &mut Random) -> Size {
    let features = random.pick(&[0, 1, 1, 2, 2, 2, 3, 3, 3, 4, 4, 5, 5, 6, 6, 7, 7, 8, 9, 10]);
    let some = random.between(3, 9);
    let many = random.between(10, 40);
    let attributes = random.pick(&[0, 1, 2, 3, 4, some, some, some, some, some, many, many, 64]);
    let large = random.chance(1, 4);
    let most = |small: usize, large_one: usize| if large { large_one } else { small };
    Size {
        features,
        attributes,
        expressions: random.between(features + 1, most(24, 120)),
        entries: random.between(4, most(60, 400)),
        relations: random.between(0, most(6, 32)),
        comparisons: random.between(0, most(14, 100)),
        queries: random.between(2, most(30, 180)),
        full: false,
    }
}
