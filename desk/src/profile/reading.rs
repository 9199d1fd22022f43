//! What the desk knows of a profile that the library has accepted: each line's rule with what it counts, and the roots' names.
//!
//! Whether a profile is good, the library alone decides. This reading is of accepted text and never fails: a field that is
//! missing reads as empty.

use crate::profile::count::Count;
use crate::profile::rule::{rule_of, unit_of, Rule, Scope};
use crate::words;
use mbrumzheg::Offer;

/// A profile that was accepted.
#[derive(Clone, Debug, Default, PartialEq, Eq)]
pub struct Profile {
    /// The text that a state was armed from.
    pub text: Vec<u8>,
    /// The firm's name.
    pub firm: String,
    /// The roots' names, by number.
    pub roots: Vec<String>,
    /// The rules, by line.
    pub rules: Vec<Rule>,
    /// What they count, rule after rule.
    pub counts: Vec<Count>,
}

impl Profile {
    /// Reads an accepted text.
    pub fn of_accepted(text: &[u8]) -> Profile {
        let mut profile = Profile { text: text.to_vec(), ..Profile::default() };
        let whole = String::from_utf8_lossy(text);
        let lines = whole.strip_suffix('\n').unwrap_or(&whole);
        for line in lines.split('\n') {
            profile.take_line(line);
        }
        profile
    }

    fn take_line(&mut self, line: &str) {
        let fields: Vec<&str> = line.split(',').collect();
        let field = |place: usize| fields.get(place).copied().unwrap_or("");
        self.firm = field(0).to_string();
        let scope = match (field(2), field(6), field(7)) {
            ("", ..) => Scope::Firm,
            (root, "", _) => Scope::Root(self.root_number(root)),
            (root, call_put, month) => Scope::Unit(self.root_number(root), unit_of(call_put, month)),
        };
        let rule = Rule { number: self.rules.len(), scope, first: self.counts.len(), ..rule_of(field(1), field(3), field(4)) };
        self.counts.extend(Count::all_of(&rule));
        self.rules.push(rule);
    }

    /// The number of a root's name, which is new if no line before had it.
    fn root_number(&mut self, name: &str) -> usize {
        self.roots.iter().position(|known| known == name).unwrap_or_else(|| {
            self.roots.push(name.to_string());
            self.roots.len() - 1
        })
    }

    /// A root's name, or its number in words if the profile has no such root.
    pub fn root_name(&self, number: u64) -> String {
        let known = usize::try_from(number).ok().and_then(|n| self.roots.get(n));
        known.cloned().unwrap_or_else(|| format!("root number {number}"))
    }

    /// Whether it has a rate rule, and so a log of fills.
    pub fn has_rate(&self) -> bool {
        self.rules.iter().any(|rule| rule.window.is_some())
    }

    /// What a rule covers, in words.
    pub fn scope_words(&self, scope: Scope) -> String {
        match scope {
            Scope::Firm => format!("firm {}", self.firm),
            Scope::Root(root) => format!("each unit of {}", self.root_name(root as u64)),
            Scope::Unit(root, unit) => format!("{} {}", self.root_name(root as u64), words::unit(unit)),
        }
    }

    /// A rule in words: number, type, limit, what it covers.
    pub fn rule_words(&self, rule: &Rule) -> String {
        format!("{} of {}", rule.words(), self.scope_words(rule.scope))
    }

    /// A count by its place, with its rule.
    pub fn count(&self, place: usize) -> Option<(&Rule, &Count)> {
        let count = self.counts.get(place)?;
        Some((self.rules.get(count.rule)?, count))
    }

    /// Every count with its rule.
    pub fn each_count(&self) -> impl Iterator<Item = (&Rule, &Count)> {
        self.counts.iter().filter_map(|count| Some((self.rules.get(count.rule)?, count)))
    }

    /// The counts that an offer counts in, one of each rule that covers it.
    pub fn covering<'a>(&'a self, offer: &'a Offer) -> impl Iterator<Item = (&'a Rule, &'a Count)> {
        self.rules.iter().filter(|rule| rule.scope.covers(offer)).filter_map(|rule| self.count(rule.place_of(offer.unit)))
    }

    /// The counts of a level: 0 is the firm, and a root's is one more than its own number.
    pub fn counts_of(&self, level: usize) -> impl Iterator<Item = &Count> {
        self.counts.iter().filter(move |count| count.level() == level)
    }

    /// A count in words: the rule's number, type and limit, and whose fills it counts.
    pub fn count_words(&self, place: usize) -> String {
        self.count(place).map_or_else(String::new, |(rule, count)| format!("{} of {}", rule.words(), self.scope_words(count.of)))
    }
}

#[cfg(test)]
mod tests {
    use super::Profile;
    use mbrumzheg::{Contracts, Offer, Premium, Root, Time, UnitOfRoot};

    fn profile() -> Profile {
        Profile::of_accepted(b"ABCD,abs_vol,,9,,T\nABCD,abs_vol,XYZ,100\nABCD,rate_vol,QQQ,5,1000,,P,F\nABCD,rate_count,QQQ,7,1000\n")
    }

    #[test]
    fn a_rule_of_a_whole_root_has_four_counts_and_any_other_one() {
        let profile = profile();
        let of_rules: Vec<(usize, u64)> = profile.counts.iter().map(|count| (count.rule, count.asked_unit().number())).collect();
        assert_eq!(of_rules, [(0, 0), (1, 0), (1, 1), (1, 2), (1, 3), (2, 2), (3, 0), (3, 1), (3, 2), (3, 3)]);
        assert!(profile.counts.iter().enumerate().all(|(place, count)| count.place == place));
        let levels: Vec<usize> = profile.counts.iter().map(|count| count.level()).collect();
        assert_eq!(levels, [0, 1, 1, 1, 1, 2, 2, 2, 2, 2]);
        assert_eq!(profile.counts_of(2).map(|count| count.place).collect::<Vec<_>>(), [5, 6, 7, 8, 9]);
    }

    #[test]
    fn an_offer_counts_in_one_count_of_each_rule_that_covers_it() {
        let profile = profile();
        let offer = |root: u64, unit: UnitOfRoot| Offer {
            time: Time::START,
            root: Root::new(root).expect("a root"),
            unit,
            premium: Premium::from_ten_thousandths(1).expect("a premium"),
            contracts: Contracts::new(1).expect("contracts"),
        };
        let places = |root, unit| profile.covering(&offer(root, unit)).map(|(_, count)| count.place).collect::<Vec<_>>();
        assert_eq!(places(0, UnitOfRoot::CallsFront), [0, 1]);
        assert_eq!(places(0, UnitOfRoot::PutsTrailing), [0, 4]);
        assert_eq!(places(1, UnitOfRoot::PutsFront), [0, 5, 8]);
        assert_eq!(places(1, UnitOfRoot::CallsTrailing), [0, 7]);
    }

    #[test]
    fn a_count_is_named_with_its_unit_where_the_rule_has_others() {
        let profile = profile();
        let short: Vec<String> = [0, 2, 5].iter().map(|place| profile.counts[*place].short_words()).collect();
        assert_eq!(short, ["rule 0", "rule 1 on call trailing", "rule 2"]);
        let ids: Vec<String> = [0, 2, 5].iter().map(|place| profile.counts[*place].id()).collect();
        assert_eq!(ids, ["rule0", "rule1-call-trailing", "rule2"]);
        let words: Vec<String> = [0, 2, 5].iter().map(|place| profile.count_words(*place)).collect();
        assert_eq!(
            words,
            ["rule 0 abs_vol 9 of firm ABCD", "rule 1 abs_vol 100 of XYZ call trailing", "rule 2 rate_vol 5 in 1 s of QQQ put front"]
        );
    }
}
