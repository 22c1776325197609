//! Checks 12 to 14: is the schema sound?

use crate::expression::Permitted;
use crate::form::Lists;
use crate::refusal::Refusal;
use crate::tables::Tables;

/// Runs 12, and then 13 and 14 relation by relation.
pub fn check(tables: &Tables, lists: &Lists, permitted: &[Permitted]) -> Result<(), Refusal> {
    if permitted.is_empty() {
        return Err(Refusal::at(12, 0));
    }
    for relation in 0..tables.count(2) {
        present_somewhere(tables, relation, permitted)?;
        entries_hold_somewhere(tables, lists, relation, permitted)?;
    }
    Ok(())
}

/// 13: present at no permitted configuration.
fn present_somewhere(
    tables: &Tables,
    relation: usize,
    permitted: &[Permitted],
) -> Result<(), Refusal> {
    let presence = usize::from(tables.relation(relation)[0]);
    if permitted.iter().any(|at| at.holds[presence]) {
        return Ok(());
    }
    Err(Refusal::at(13, relation))
}

/// 14: relation and entry hold together at no permitted configuration. The
/// entries go in the order of the list, and each is tested by itself, also where
/// its attribute is there by another entry; the item is the attribute.
fn entries_hold_somewhere(
    tables: &Tables,
    lists: &Lists,
    relation: usize,
    permitted: &[Permitted],
) -> Result<(), Refusal> {
    let presence = usize::from(tables.relation(relation)[0]);
    for entry in lists.relations[relation].clone() {
        let [attribute, expression] = tables.entry(entry);
        let expression = usize::from(expression);
        let together = |at: &Permitted| at.holds[presence] && at.holds[expression];
        if !permitted.iter().any(together) {
            let item = u64::from(attribute);
            return Err(Refusal::new(14, relation as u64, item, 0));
        }
    }
    Ok(())
}
