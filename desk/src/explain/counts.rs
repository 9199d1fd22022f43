//! A line that is one rule or one root more than a profile may have.

use crate::explain::fault::Fault;
use crate::explain::fields::{Fields, CALL_PUT, MONTH, ROOT};
use crate::profile::{unit_of, Profile, Rule, Scope};
use crate::words;
use mbrumzheg::Refusal::TooMany;
use mbrumzheg::UnitOfRoot;

const MOST_RULES: usize = 256;
const MOST_ROOTS: usize = 64;
const MOST_OF_FIRM: usize = 10;
const MOST_OF_UNIT: usize = 6;

/// Why a line is one too many after a profile; nothing if it is not.
pub fn fault(fields: &Fields, before: &Profile) -> Option<Fault> {
    let whole = 0..fields.line.len();
    if before.rules.len() >= MOST_RULES {
        return Some(Fault::new(TooMany, whole, format!("there are {MOST_RULES} rules before this line, and that is the most")));
    }
    if fields.is_firm_level() {
        let firm: Vec<&Rule> = before.rules.iter().filter(|rule| rule.scope == Scope::Firm).collect();
        let words = || format!("{MOST_OF_FIRM} rules of the firm are the most, and they stand in lines {}", listed(&firm));
        return (firm.len() >= MOST_OF_FIRM).then(|| Fault::new(TooMany, whole, words()));
    }
    let name = fields.text(ROOT);
    let Some(root) = before.roots.iter().position(|known| *known == name) else {
        let words = format!("{name} would be the {}th root, and {MOST_ROOTS} are the most", MOST_ROOTS + 1);
        return (before.roots.len() >= MOST_ROOTS).then(|| Fault::new(TooMany, fields.span(ROOT), words));
    };
    let own = (!fields.bytes(CALL_PUT).is_empty()).then(|| unit_of(&fields.text(CALL_PUT), &fields.text(MONTH)));
    UnitOfRoot::ALL
        .into_iter()
        .filter(|unit| own.is_none_or(|own| own == *unit))
        .find_map(|unit| full(before, root, unit))
        .map(|words| Fault::new(TooMany, fields.span(ROOT), words))
}

/// What to say of a unit that has as many rules as it may.
fn full(before: &Profile, root: usize, unit: UnitOfRoot) -> Option<String> {
    let covers = |rule: &&Rule| rule.scope == Scope::Root(root) || rule.scope == Scope::Unit(root, unit);
    let on_unit: Vec<&Rule> = before.rules.iter().filter(covers).collect();
    let name = before.root_name(root as u64);
    (on_unit.len() >= MOST_OF_UNIT).then(|| {
        let unit = words::unit(unit);
        format!("{MOST_OF_UNIT} rules on one unit are the most, and {name} {unit} has them in lines {}", listed(&on_unit))
    })
}

/// The lines of some rules.
fn listed(rules: &[&Rule]) -> String {
    rules.iter().map(|rule| (rule.number + 1).to_string()).collect::<Vec<_>>().join(", ")
}
