//! The two forms of an event record, by the widths of their fields, and events and faults drawn for them.

use second::gen::Random;

/// An event's numbers: kind, time, root, unit, premium, contracts, reset, level, identity and reports; the last two are 0 in the old form.
pub type Event = [u64; 10];

/// The names of the numbers.
pub const NAMES: [&str; 10] = ["kind", "time", "root", "unit", "premium", "contracts", "reset", "level", "identity", "reports"];

/// The places of the numbers.
pub const KIND: usize = 0;
pub const TIME: usize = 1;
pub const ROOT: usize = 2;
pub const UNIT: usize = 3;
pub const PREMIUM: usize = 4;
pub const CONTRACTS: usize = 5;
pub const RESET: usize = 6;
pub const LEVEL: usize = 7;
pub const IDENTITY: usize = 8;
pub const REPORTS: usize = 9;

/// The names of the kinds.
pub const KINDS: [&str; 6] = ["order", "offer", "lockout", "sending", "report", "closing"];
const LOCKOUT: u64 = 2;

/// The fields that each kind uses, beside kind and time.
const USED: [&[usize]; 6] = [
    &[ROOT, RESET],
    &[ROOT, UNIT, PREMIUM, CONTRACTS],
    &[ROOT, LEVEL],
    &[ROOT, UNIT, PREMIUM, CONTRACTS, IDENTITY, REPORTS],
    &[CONTRACTS, IDENTITY],
    &[IDENTITY],
];

/// One of the two forms.
pub struct Form {
    /// The bytes of a record, and how many of an event's numbers it has.
    pub bytes: usize,
    pub numbers: usize,
    widths: [u32; 10],
    last_kind: u64,
    last_time: u64,
    last_reset: u64,
    /// How many of its units of time a millisecond has.
    in_a_millisecond: u64,
}

/// The form of 12 bytes.
pub const OLD: Form = Form {
    bytes: 12,
    numbers: 8,
    widths: [2, 27, 6, 2, 27, 20, 2, 1, 0, 0],
    last_kind: 2,
    last_time: 86_399_999,
    last_reset: 3,
    in_a_millisecond: 1,
};

/// The form of 16 bytes.
pub const NEW: Form = Form {
    bytes: 16,
    numbers: 10,
    widths: [4, 37, 6, 2, 27, 20, 4, 1, 16, 5],
    last_kind: 5,
    last_time: 86_399_999_999,
    last_reset: 6,
    in_a_millisecond: 1_000,
};

/// What makes an event faulty, and nothing else does.
#[derive(Clone, Copy, Debug, PartialEq, Eq, PartialOrd, Ord)]
pub enum Fault {
    /// A kind or time that is not known.
    Above(usize),
    /// A number of 0 where it is at least 1.
    Zero(usize),
    /// A number that its kind uses, above its range.
    Most(usize),
    /// A number that its kind doesn't use.
    Unused(usize),
    /// The root of a firm's lockout.
    FirmRoot,
    /// A number whose low bits are good and that is too wide for its field.
    Wide(usize),
    /// A spare bit.
    Spare,
}

impl Fault {
    /// The fault in words.
    pub fn name(self) -> String {
        match self {
            Fault::Above(field) => format!("{} not known", NAMES[field]),
            Fault::Zero(field) => format!("{} 0", NAMES[field]),
            Fault::Most(field) => format!("{} above its range", NAMES[field]),
            Fault::Unused(field) => format!("{} of a kind without", NAMES[field]),
            Fault::FirmRoot => "root of a firm's lockout".into(),
            Fault::Wide(field) => format!("{} too wide", NAMES[field]),
            Fault::Spare => "spare bit".into(),
        }
    }
}

impl Form {
    /// The faults that an event's numbers can have in this form without being too wide.
    fn narrow_faults(&self) -> Vec<Fault> {
        let unused = |field: &usize| USED[..=self.last_kind as usize].iter().any(|used| !used.contains(field));
        let mut faults = vec![Fault::Above(KIND), Fault::Above(TIME), Fault::FirmRoot];
        faults.extend([PREMIUM, CONTRACTS].into_iter().flat_map(|field| [Fault::Zero(field), Fault::Most(field)]));
        faults.extend((ROOT..self.numbers).filter(unused).map(Fault::Unused));
        if self.numbers > REPORTS {
            faults.extend([Fault::Most(RESET), Fault::Zero(REPORTS), Fault::Most(REPORTS)]);
        }
        faults
    }

    /// The faults that bytes can have.
    pub fn faults_of_bytes(&self) -> Vec<Fault> {
        [self.narrow_faults(), vec![Fault::Spare]].concat()
    }

    /// The faults that numbers can have.
    pub fn faults_of_numbers(&self) -> Vec<Fault> {
        [self.narrow_faults(), (KIND..self.numbers).map(Fault::Wide).collect()].concat()
    }

    /// Does a kind of this form use a field?
    fn uses(&self, kind: u64, field: usize) -> bool {
        USED[kind as usize].contains(&field)
    }

    /// A valid event, at the ends of ranges at times; half of the times are whole milliseconds.
    pub fn valid(&self, random: &mut Random) -> Event {
        let kind = random.below(self.last_kind + 1);
        let mut event = [0; 10];
        event[KIND] = kind;
        let any = random.below(self.last_time + 1);
        let whole = any - any % self.in_a_millisecond;
        let last_whole = self.last_time - self.last_time % self.in_a_millisecond;
        event[TIME] = random.pick(&[0, whole, whole, whole, last_whole, any, any, self.last_time, self.in_a_millisecond, whole + 1]);
        for field in (ROOT..self.numbers).filter(|field| self.uses(kind, *field)) {
            let [least, most] = self.range(field);
            let any = random.between(least, most);
            event[field] = random.pick(&[any, any, least, most]);
        }
        if kind == LOCKOUT && event[LEVEL] == 1 {
            event[ROOT] = 0;
        }
        event
    }

    /// The fields that some kind up to a last one uses, and the time.
    pub fn used_up_to(last_kind: usize) -> Vec<usize> {
        (TIME..REPORTS + 1).filter(|field| *field == TIME || USED[..=last_kind].iter().any(|used| used.contains(field))).collect()
    }

    /// The fields of a valid event that stand at the end of their range: whether at the most.
    pub fn at_ends(&self, event: &Event) -> Vec<(usize, bool)> {
        let used = (TIME..self.numbers).filter(|field| *field == TIME || self.uses(event[KIND], *field));
        used.flat_map(|field| [(field, false), (field, true)])
            .filter(|(field, most)| event[*field] == self.range(*field)[usize::from(*most)])
            .collect()
    }

    /// The range of a field that is used.
    pub fn range(&self, field: usize) -> [u64; 2] {
        match field {
            TIME => [0, self.last_time],
            PREMIUM => [1, 100_000_000],
            CONTRACTS => [1, 1_000_000],
            RESET => [0, self.last_reset],
            REPORTS => [1, 16],
            _ => [0, self.widest(field)],
        }
    }

    /// The largest number that fits a field.
    fn widest(&self, field: usize) -> u64 {
        (1 << self.widths[field]) - 1
    }

    /// An event with this fault and no other; Spare is not one of its numbers.
    pub fn faulty(&self, random: &mut Random, fault: Fault) -> Event {
        loop {
            let mut event = self.valid(random);
            if self.spoil(random, &mut event, fault) {
                return event;
            }
        }
    }

    /// Puts the fault into a valid event, if its kind can have it.
    fn spoil(&self, random: &mut Random, event: &mut Event, fault: Fault) -> bool {
        let kind = event[KIND];
        let mut between = |least: u64, most: u64| {
            let any = random.between(least, most);
            random.pick(&[least, any, most])
        };
        match fault {
            Fault::Above(KIND) => event[KIND] = between(self.last_kind + 1, self.widest(KIND)),
            Fault::Above(_) => event[TIME] = between(self.last_time + 1, self.widest(TIME)),
            Fault::Zero(field) if self.uses(kind, field) => event[field] = 0,
            Fault::Most(field) if self.uses(kind, field) => event[field] = between(self.range(field)[1] + 1, self.widest(field)),
            Fault::Unused(field) if !self.uses(kind, field) => event[field] = between(1, self.widest(field)),
            Fault::FirmRoot if kind == LOCKOUT && event[LEVEL] == 1 => event[ROOT] = between(1, 63),
            Fault::Wide(field) => event[field] |= between(1, u64::MAX >> self.widths[field]) << self.widths[field],
            _ => return false,
        }
        true
    }

    /// The bytes of an event whose numbers fit their fields, and of spare bits.
    pub fn packed(&self, event: &Event, spare: u128) -> Vec<u8> {
        let whole = event.iter().zip(self.widths).fold(0u128, |whole, (number, width)| whole << width | u128::from(*number));
        let spare_width = 8 * self.bytes as u32 - self.widths.iter().sum::<u32>();
        (whole << spare_width | spare).to_be_bytes()[16 - self.bytes..].to_vec()
    }

    /// Any spare bits, not all 0.
    pub fn any_spare(&self, random: &mut Random) -> u128 {
        let spare_width = 8 * self.bytes as u32 - self.widths.iter().sum::<u32>();
        let [any, one] = [random.between(1, (1 << spare_width) - 1), 1 << random.below(u64::from(spare_width))];
        u128::from(random.pick(&[any, one]))
    }
}
