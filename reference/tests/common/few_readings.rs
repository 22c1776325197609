//! Ways to judge a report at its permitted configurations, the right one and wrong ones:
//! which configurations are looked at, which fault of several is named, what is shown.

use reference::check::ROWS;
use reference::expression::{self, Permitted};
use reference::form::{self, Lists};
use reference::refusal::is_of_typing;
use reference::tables::RELATION;
use reference::{typing, Refusal, Tables};

/// The rows, or the refusal.
type Answer = Result<Vec<u64>, Refusal>;

/// How a program judges.
pub struct Reading {
    pub words: &'static str,
    /// The configurations that it looks at, of all, ascending; and what it takes the
    /// expressions to say there.
    looked_at: fn(&Tables, Vec<Permitted>) -> Vec<Permitted>,
    /// The columns at a configuration, or the fault there.
    judged: fn(&Tables, &Lists, &Permitted) -> Result<u64, Refusal>,
    /// Does the fault count?
    counts: fn(&Tables, &Refusal) -> bool,
    /// Of several faults the one with the lowest numbers is named.
    order: fn(&Refusal) -> [u64; 3],
    /// What is told of a configuration, given its place among those looked at.
    named: fn(usize, u64) -> u64,
}

pub const RIGHT: Reading = Reading {
    words: "the lowest form, 16 before 25 in it, its lowest configuration",
    looked_at: permitted,
    judged: typing::report_at,
    counts: |_, _| true,
    order: |fault| [fault.place, phase(fault), fault.configuration],
    named: |_, c| c,
};

/// 25 is looked for in a form where nothing else fails.
fn phase(fault: &Refusal) -> u64 {
    u64::from(fault.number == 25)
}

/// The wrong programs that the cases have to tell from the right one.
pub const WRONG: [Reading; 28] = [
    Reading {
        words: "the first 8 permitted ones alone",
        looked_at: |tables, all| first(8, tables, all),
        ..RIGHT
    },
    Reading {
        words: "the first 16 permitted ones alone",
        looked_at: |tables, all| first(16, tables, all),
        ..RIGHT
    },
    Reading {
        words: "the first 32 permitted ones alone",
        looked_at: |tables, all| first(32, tables, all),
        ..RIGHT
    },
    Reading {
        words: "the first 64 permitted ones alone",
        looked_at: |tables, all| first(64, tables, all),
        ..RIGHT
    },
    Reading {
        words: "the first 128 permitted ones alone",
        looked_at: |tables, all| first(128, tables, all),
        ..RIGHT
    },
    Reading {
        words: "the first word of configurations alone",
        looked_at: |tables, all| {
            let mut permitted = permitted(tables, all);
            permitted.retain(|at| at.configuration < 64);
            permitted
        },
        ..RIGHT
    },
    Reading {
        words: "all permitted ones but the last",
        looked_at: |tables, all| {
            let mut permitted = permitted(tables, all);
            permitted.pop();
            permitted
        },
        ..RIGHT
    },
    Reading {
        words: "all permitted ones but the first",
        looked_at: |tables, all| permitted(tables, all).split_off(1),
        ..RIGHT
    },
    Reading {
        words: "configurations that are not permitted too",
        looked_at: |_, all| all,
        ..RIGHT
    },
    Reading {
        words: "expressions from 16 on are false",
        looked_at: |tables, all| with_expressions(16, tables, all),
        ..RIGHT
    },
    Reading {
        words: "expressions from 32 on are false",
        looked_at: |tables, all| with_expressions(32, tables, all),
        ..RIGHT
    },
    Reading {
        words: "expressions from 64 on are false",
        looked_at: |tables, all| with_expressions(64, tables, all),
        ..RIGHT
    },
    Reading {
        words: "expressions from 128 on are false",
        looked_at: |tables, all| with_expressions(128, tables, all),
        ..RIGHT
    },
    Reading {
        words: "faults in forms below 16 alone",
        counts: |_, fault| fault.place < 16,
        ..RIGHT
    },
    Reading {
        words: "faults in forms below 32 alone",
        counts: |_, fault| fault.place < 32,
        ..RIGHT
    },
    Reading {
        words: "faults in forms below 64 alone",
        counts: |_, fault| fault.place < 64,
        ..RIGHT
    },
    Reading {
        words: "faults in forms below 128 alone",
        counts: |_, fault| fault.place < 128,
        ..RIGHT
    },
    Reading {
        words: "items below 32 alone",
        counts: |_, fault| fault.item < 32,
        ..RIGHT
    },
    Reading {
        words: "items below m alone",
        counts: |tables, fault| fault.item < tables.attributes,
        ..RIGHT
    },
    Reading {
        words: "attributes below 32 alone",
        judged: |tables, lists, at| Ok(typing::report_at(tables, lists, at)? & 0xFFFF_FFFF),
        ..RIGHT
    },
    Reading {
        words: "an absent relation where it is not reached too",
        judged: |tables, lists, at| match (absent(tables, at), typing::report_at(tables, lists, at))
        {
            (Some(fault), Err(other)) if other.place < fault.place => Err(other),
            (Some(fault), _) => Err(fault),
            (None, set) => set,
        },
        ..RIGHT
    },
    Reading {
        words: "the lowest configuration, then the lowest form",
        order: |fault| [fault.configuration, fault.place, 0],
        ..RIGHT
    },
    Reading {
        words: "in one form the lowest configuration first, whether 16 or 25",
        order: |fault| [fault.place, fault.configuration, 0],
        ..RIGHT
    },
    Reading {
        words: "25 after all other typing faults",
        order: |fault| [phase(fault), fault.place, fault.configuration],
        ..RIGHT
    },
    Reading {
        words: "the highest configuration of the form",
        order: |fault| [fault.place, phase(fault), !fault.configuration],
        ..RIGHT
    },
    Reading {
        words: "the lowest item of the form",
        order: |fault| [fault.place, phase(fault), fault.item],
        ..RIGHT
    },
    Reading {
        words: "the highest form",
        order: |fault| [!fault.place, phase(fault), fault.configuration],
        ..RIGHT
    },
    Reading {
        words: "the place among the permitted ones for the configuration",
        named: |place, _| place as u64,
        ..RIGHT
    },
];

/// All configurations, permitted or not.
fn everywhere(tables: &Tables) -> Vec<Permitted> {
    let at = |configuration| Permitted {
        configuration,
        holds: expression::values(tables, configuration),
    };
    (0..tables.configurations()).map(at).collect()
}

/// Those of them where the model holds.
fn permitted(tables: &Tables, mut all: Vec<Permitted>) -> Vec<Permitted> {
    all.retain(|at| at.holds[tables.model as usize]);
    all
}

/// The first so many permitted configurations.
fn first(count: usize, tables: &Tables, all: Vec<Permitted>) -> Vec<Permitted> {
    let mut permitted = permitted(tables, all);
    permitted.truncate(count);
    permitted
}

/// The permitted configurations, where the first so many expressions count alone.
fn with_expressions(count: usize, tables: &Tables, mut all: Vec<Permitted>) -> Vec<Permitted> {
    for at in &mut all {
        at.holds
            .iter_mut()
            .skip(count)
            .for_each(|holds| *holds = false);
    }
    permitted(tables, all)
}

/// The lowest relation form whose relation is absent, reached or not.
fn absent(tables: &Tables, at: &Permitted) -> Option<Refusal> {
    let is_absent = |form: &usize| {
        let [kind, a, ..] = tables.query(*form);
        kind == RELATION && !at.holds[usize::from(tables.relation(a.into())[0])]
    };
    let form = (0..tables.count(4)).find(is_absent)?;
    let [_, relation, ..] = tables.query(form);
    Some(Refusal::new(
        15,
        form as u64,
        relation.into(),
        at.configuration,
    ))
}

/// The rows or the refusal by each reading, given the right one. What is refused before
/// typing is refused by all.
pub fn answers(tables: &Tables, right: &Answer, readings: &[Reading]) -> Vec<Answer> {
    match right {
        Err(refusal) if !is_of_typing(refusal.number) => vec![right.clone(); readings.len()],
        _ => {
            let lists = form::check(tables).expect("sound in form");
            let all = everywhere(tables);
            let answer = |reading| answer(tables, &lists, all.clone(), reading);
            readings.iter().map(answer).collect()
        }
    }
}

fn answer(tables: &Tables, lists: &Lists, all: Vec<Permitted>, reading: &Reading) -> Answer {
    let mut rows = vec![0; ROWS];
    let mut faults = Vec::new();
    for (place, at) in (reading.looked_at)(tables, all).iter().enumerate() {
        let c = (reading.named)(place, at.configuration);
        match (reading.judged)(tables, lists, at) {
            Ok(set) => show(set, c, &mut rows),
            Err(fault) => faults.push(Refusal {
                configuration: c,
                ..fault
            }),
        }
    }
    faults.retain(|fault| (reading.counts)(tables, fault));
    match faults.into_iter().min_by_key(reading.order) {
        None => Ok(rows),
        Some(fault) => Err(fault),
    }
}

/// Puts the set of a configuration in the rows.
fn show(set: u64, c: u64, rows: &mut [u64]) {
    for attribute in (0..64).filter(|attribute| set >> attribute & 1 == 1) {
        rows[16 * attribute + c as usize / 64] |= 1 << (c % 64);
    }
}
