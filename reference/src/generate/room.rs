//! Lengths of the lent page, aimed at 23 and at what a wrong comparison takes
//! for the number of lines.

use crate::expression;
use crate::form;
use crate::page::{LINE, MOST_LINES};
use crate::random::Random;
use crate::tables::{Tables, MOST_FEATURES};

/// One sort of lent page.
pub struct Room {
    /// Has it room for all lines?
    pub enough: bool,
    /// The sort, in words.
    pub words: &'static str,
    /// Its bytes; none when the tables give no occasion.
    bytes: fn(&mut Random, Page) -> Option<usize>,
}

/// What is known of a page.
#[derive(Clone, Copy)]
struct Page {
    /// The number of lines.
    lines: usize,
    /// 2^n.
    configurations: usize,
}

impl Page {
    /// Tables that are not sound in form get as many lines as their head allows:
    /// they are refused, whatever is lent.
    fn of(tables: &Tables) -> Page {
        let configurations = 1 << tables.features.min(MOST_FEATURES);
        let lines = match form::check(tables) {
            Ok(_) => expression::permitted(tables).len(),
            Err(_) => configurations,
        };
        Page {
            lines,
            configurations,
        }
    }

    /// The bytes of its lines.
    fn bytes(self) -> usize {
        LINE * self.lines
    }

    /// So many bytes, when they are too few.
    fn fewer(self, bytes: usize) -> Option<usize> {
        (bytes < self.bytes()).then_some(bytes)
    }

    /// So many bytes, when they are enough.
    fn enough(self, bytes: usize) -> Option<usize> {
        (bytes >= self.bytes()).then_some(bytes)
    }
}

/// The number of bytes lent for the page of any tables, sound or not. It is
/// enough in two of three cases: a page that is written tells more than 23.
pub fn page_room(random: &mut Random, tables: &Tables) -> usize {
    let page = Page::of(tables);
    loop {
        let enough = random.chance(2, 3);
        let rooms = ROOMS.iter().filter(|room| room.enough == enough);
        let room = random.pick(&rooms.collect::<Vec<&Room>>());
        if let Some(bytes) = (room.bytes)(random, page) {
            return bytes;
        }
    }
}

/// A lent page of the given sort; none when the tables give no occasion.
pub fn page_room_by(random: &mut Random, tables: &Tables, room: &Room) -> Option<usize> {
    (room.bytes)(random, Page::of(tables))
}

const fn enough(words: &'static str, bytes: fn(&mut Random, Page) -> Option<usize>) -> Room {
    Room {
        enough: true,
        words,
        bytes,
    }
}

const fn fewer(words: &'static str, bytes: fn(&mut Random, Page) -> Option<usize>) -> Room {
    Room {
        enough: false,
        words,
        bytes,
    }
}

/// All sorts of lent pages.
pub const ROOMS: &[Room] = &[
    enough("exactly", |_, page| Some(page.bytes())),
    enough("a byte more", |_, page| Some(page.bytes() + 1)),
    enough("72 bytes more", |_, page| Some(page.bytes() + LINE - 1)),
    enough("a line more", |_, page| Some(page.bytes() + LINE)),
    enough("some more", |random, page| {
        Some(page.bytes() + random.below(4 * LINE))
    }),
    enough("a line for each of 2^n", |_, page| {
        Some(LINE * page.configurations)
    }),
    enough("a line for each of 2^n, but a byte", |_, page| {
        page.enough(LINE * page.configurations - 1)
    }),
    enough("1,024 lines", |_, _| Some(LINE * MOST_LINES)),
    enough("1,024 lines but a byte", |_, page| {
        page.enough(LINE * MOST_LINES - 1)
    }),
    enough("1,024 lines and a byte", |_, _| Some(LINE * MOST_LINES + 1)),
    fewer("a byte too few", |_, page| page.bytes().checked_sub(1)),
    fewer("a line too few", |_, page| page.bytes().checked_sub(LINE)),
    fewer("a line and a byte too few", |_, page| {
        page.bytes().checked_sub(LINE + 1)
    }),
    fewer("no bytes", |_, page| page.fewer(0)),
    fewer("a byte", |_, page| page.fewer(1)),
    fewer("a line, of more", |_, page| page.fewer(LINE)),
    fewer("72 bytes for each line", |_, page| {
        page.fewer((LINE - 1) * page.lines)
    }),
    fewer("a byte for each line", |_, page| page.fewer(page.lines)),
    fewer("a byte for each of 2^n", |_, page| {
        page.fewer(page.configurations)
    }),
    fewer("the bytes modulo 65,536", |_, page| {
        page.fewer(page.bytes() % (1 << 16))
    }),
    fewer("any too few", |random, page| {
        (page.lines > 0).then(|| random.below(page.bytes()))
    }),
];
