//! What the expressions of table 0 say at a configuration.

use crate::tables::Tables;

/// One permitted configuration, with the value of every expression there.
#[derive(Clone, Debug)]
pub struct Permitted {
    pub configuration: u64,
    pub holds: Vec<bool>,
}

/// The value of every expression at a configuration. Operands have lower
/// numbers, so one ascending pass does it, however much they are shared.
pub fn values(tables: &Tables, configuration: u64) -> Vec<bool> {
    let mut holds: Vec<bool> = Vec::with_capacity(tables.count(0));
    for form in 0..tables.count(0) {
        let [kind, a, b] = tables.expression(form).map(usize::from);
        let value = match kind {
            0 => false,
            1 => true,
            2 => configuration >> a & 1 == 1,
            3 => !holds[a],
            4 => holds[a] && holds[b],
            5 => holds[a] || holds[b],
            6 => on_in_range(configuration, a, b) == 1,
            _ => panic!("check 3 lets no other kind pass"),
        };
        holds.push(value);
    }
    holds
}

/// How many of the `count` features from `first` on are on.
fn on_in_range(configuration: u64, first: usize, count: usize) -> usize {
    let features = first..first + count;
    features.filter(|f| configuration >> f & 1 == 1).count()
}

/// The permitted configurations, ascending: those where the model holds.
pub fn permitted(tables: &Tables) -> Vec<Permitted> {
    let mut all = Vec::new();
    for configuration in 0..tables.configurations() {
        let holds = values(tables, configuration);
        if holds[tables.model as usize] {
            all.push(Permitted {
                configuration,
                holds,
            });
        }
    }
    all
}
