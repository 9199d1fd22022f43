//! Which limits a table shows, and the words that ask for them.

use crate::profile::{Count, Profile, Scope};
use crate::typed::names::{unit, Names};
use crate::typed::topics::REMAINING_FORM;
use crate::words::{self, shortened};
use mbrumzheg::{Time, UnitOfRoot};

/// Which limits a table shows.
#[derive(Clone, Copy, Debug, PartialEq, Eq)]
pub enum Shown {
    /// All of them.
    All,
    /// The firm's.
    Firm,
    /// Those of one root, on each of its units.
    Root(usize),
    /// Those of one root, on one of its units.
    Unit(usize, UnitOfRoot),
    /// One rule's, on one unit if that is said. Whether there is such a rule, and whether the unit is its own, the library decides.
    Rule(u64, Option<UnitOfRoot>),
}

impl Shown {
    /// Whether a count is among them.
    fn has(self, count: &Count) -> bool {
        match (self, count.of) {
            (Shown::All, _) | (Shown::Firm, Scope::Firm) => true,
            (Shown::Root(shown), Scope::Unit(root, _)) => shown == root,
            (Shown::Unit(shown, on), Scope::Unit(root, unit)) => shown == root && on == unit,
            (Shown::Rule(number, None), _) => number == count.rule as u64,
            _ => false,
        }
    }

    /// The rules, by number, and the units that the library is asked for.
    pub fn asked(self, profile: &Profile) -> Vec<(u64, UnitOfRoot)> {
        let counts = profile.counts.iter().filter(|count| self.has(count));
        match self {
            Shown::Rule(number, Some(unit)) => vec![(number, unit)],
            Shown::Rule(number, None) if number >= profile.rules.len() as u64 => vec![(number, UnitOfRoot::CallsFront)],
            _ => counts.map(|count| (count.rule as u64, count.asked_unit())).collect(),
        }
    }

    /// The one level that it is about, if it is not about all.
    pub fn level(self, profile: &Profile) -> Option<usize> {
        match self {
            Shown::All => None,
            Shown::Firm => Some(0),
            Shown::Root(root) | Shown::Unit(root, _) => Some(root + 1),
            Shown::Rule(number, _) => profile.rules.get(number as usize).map(|rule| rule.scope.level()),
        }
    }
}

impl Names<'_> {
    /// The time and the limits that a table is asked for.
    pub fn table(&self, typed: &[String]) -> Result<(Time, Shown), String> {
        match typed.split_first() {
            Some((time, rest)) if words::looks_like_time(time) => Ok((self.time(time)?, self.shown(rest)?)),
            _ => Ok((self.clock, self.shown(typed)?)),
        }
    }

    fn shown(&self, typed: &[String]) -> Result<Shown, String> {
        let on = |call_put: &str, month: &str| unit(call_put, month, REMAINING_FORM);
        let root = |name: &str| self.root(name).map(|root| root.number() as usize);
        let typed: Vec<&str> = typed.iter().map(String::as_str).collect();
        match typed[..] {
            [] => Ok(Shown::All),
            ["firm"] => Ok(Shown::Firm),
            [name] => Ok(Shown::Root(root(name)?)),
            ["rule", number] => Ok(Shown::Rule(rule(number)?, None)),
            ["rule", number, call_put, month] => Ok(Shown::Rule(rule(number)?, Some(on(call_put, month)?))),
            ["firm", _, _] => Err("the firm counts the fills of all units together; type remaining firm".to_string()),
            [name, call_put, month] => Ok(Shown::Unit(root(name)?, on(call_put, month)?)),
            _ => Err(format!("that cannot be shown; type {REMAINING_FORM}")),
        }
    }
}

fn rule(word: &str) -> Result<u64, String> {
    word.parse().map_err(|_| format!("'{}' is no number of a rule; type {REMAINING_FORM}", shortened(word)))
}

#[cfg(test)]
mod tests {
    use super::Shown;
    use crate::profile::Profile;
    use crate::typed::names::Names;
    use mbrumzheg::{Time, UnitOfRoot};

    fn profile() -> Profile {
        Profile::of_accepted(b"ABCD,abs_vol,XYZ,100\nABCD,abs_vol,,9,,T\nABCD,abs_vol,RULE,5,,,P,F\n")
    }

    fn asked(line: &str) -> Result<(u64, Shown), String> {
        let typed: Vec<String> = line.split_whitespace().map(str::to_string).collect();
        let names = Names { profile: &profile(), clock: Time::from_ms(7).expect("a time") };
        names.table(&typed).map(|(time, shown)| (time.ms(), shown))
    }

    #[test]
    fn words_ask_for_limits() {
        for (line, wanted) in [
            ("", (7, Shown::All)),
            ("10ms", (10, Shown::All)),
            ("firm", (7, Shown::Firm)),
            ("xyz", (7, Shown::Root(0))),
            ("+1ms XYZ put trailing", (8, Shown::Unit(0, UnitOfRoot::PutsTrailing))),
            ("rule 0", (7, Shown::Rule(0, None))),
            ("now rule 2 call front", (7, Shown::Rule(2, Some(UnitOfRoot::CallsFront)))),
            // a root may be called so
            ("rule", (7, Shown::Root(1))),
            ("rule put front", (7, Shown::Unit(1, UnitOfRoot::PutsFront))),
        ] {
            assert_eq!(asked(line), Ok(wanted), "{line}");
        }
        for line in ["SPY", "XYZ put", "XYZ put front 1", "firm put front", "rule x y", "rule -1", "rule 0 put", "10ms 20ms XYZ"] {
            assert!(asked(line).is_err(), "{line}");
        }
    }

    #[test]
    fn the_library_is_asked_by_rule_and_unit() {
        let profile = profile();
        for (shown, wanted) in [
            (Shown::All, vec![(0, 0), (0, 1), (0, 2), (0, 3), (1, 0), (2, 2)]),
            (Shown::Firm, vec![(1, 0)]),
            (Shown::Root(1), vec![(2, 2)]),
            (Shown::Unit(0, UnitOfRoot::CallsTrailing), vec![(0, 1)]),
            (Shown::Unit(1, UnitOfRoot::CallsTrailing), vec![]),
            (Shown::Rule(0, None), vec![(0, 0), (0, 1), (0, 2), (0, 3)]),
            (Shown::Rule(2, None), vec![(2, 2)]),
            // what the profile does not have is asked for too, and the library refuses it
            (Shown::Rule(2, Some(UnitOfRoot::CallsFront)), vec![(2, 0)]),
            (Shown::Rule(3, None), vec![(3, 0)]),
        ] {
            let asked: Vec<(u64, u64)> = shown.asked(&profile).iter().map(|(rule, unit)| (*rule, unit.number())).collect();
            assert_eq!(asked, wanted, "{shown:?}");
        }
    }
}
