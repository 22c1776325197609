//! The plainest way to an expression's value: it is walked for one configuration,
//! from table 0's words, and nothing is kept.

use std::hint::black_box;

use reference::tables::EXACTLY_ONE;
use reference::Tables;

/// Does the expression hold at the configuration? An operand is walked again wherever
/// it is met, so this is not for tables that share many.
pub fn holds(tables: &Tables, expression: u16, configuration: u64) -> bool {
    let [kind, a, b] = tables.expression(expression.into());
    let is_on = |feature: u16| configuration >> feature & 1 == 1;
    match kind {
        0 => false,
        1 => true,
        2 => is_on(a),
        3 => !holds(tables, a, configuration),
        4 => holds(tables, a, configuration) && holds(tables, b, configuration),
        5 => holds(tables, a, configuration) || holds(tables, b, configuration),
        EXACTLY_ONE => (a..a + b).filter(|&feature| is_on(feature)).count() == 1,
        _ => panic!("check 3 lets no other kind pass"),
    }
}

/// Walks the expression of each entry at each configuration.
pub fn all_entries(tables: &Tables) {
    for entry in 0..tables.count(1) {
        let [_, expression] = tables.entry(entry);
        for configuration in 0..tables.configurations() {
            // Entries may have one expression, and each walks it all the same.
            black_box(holds(tables, black_box(expression), configuration));
        }
    }
}
