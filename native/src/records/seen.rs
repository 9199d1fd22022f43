//! What came up of event records: so that a run that saw too little does not pass.

use std::collections::BTreeMap;
use std::fmt;

use super::forms::{Event, Fault, Form, KIND, KINDS, NAMES, NEW, OLD};

/// The longest input, and the longest room, of those that are gone through one by one.
pub const LONGEST: usize = 20;

/// A call.
#[derive(Clone, Copy, Debug, PartialEq, Eq, PartialOrd, Ord)]
pub enum Call {
    Read,
    Write,
    Read16,
    Write16,
    Widen,
    Narrow,
}

impl Call {
    const ALL: [Call; 6] = [Call::Read, Call::Write, Call::Read16, Call::Write16, Call::Widen, Call::Narrow];

    /// The call in words.
    fn name(self) -> &'static str {
        ["12 bytes read", "12 bytes written", "16 bytes read", "16 bytes written", "widened", "narrowed"][self as usize]
    }

    /// The form of what goes in.
    pub fn form(self) -> &'static Form {
        match self {
            Call::Read | Call::Write | Call::Widen => &OLD,
            Call::Read16 | Call::Write16 | Call::Narrow => &NEW,
        }
    }

    /// Are numbers given to it, and not bytes?
    fn takes_numbers(self) -> bool {
        matches!(self, Call::Write | Call::Write16)
    }

    /// The bytes that it writes, if it writes any.
    pub fn written(self) -> Option<usize> {
        match self {
            Call::Read | Call::Read16 => None,
            Call::Write | Call::Narrow => Some(OLD.bytes),
            Call::Write16 | Call::Widen => Some(NEW.bytes),
        }
    }
}

/// Why a good record of 16 bytes doesn't fit the old form.
#[derive(Clone, Copy, Debug, PartialEq, Eq, PartialOrd, Ord)]
pub enum Unfit {
    Kind,
    Time,
    Reset,
}

/// What came up of a call.
#[derive(Clone, Copy, Debug, PartialEq, Eq, PartialOrd, Ord)]
pub enum What {
    /// Done, of a kind.
    Done(usize),
    /// Done, with a field at an end of its range: whether at the most.
    End(usize, bool),
    /// 16 for one fault alone.
    Faulty(Fault),
    /// 16 for so many bytes.
    Length(usize),
    /// 16 for bytes with flipped bits, or for any numbers.
    Flipped,
    /// 16, and too little room.
    FaultyAndShort,
    /// 20 for one reason alone.
    Unfit(Unfit),
    /// 20 for more than one.
    UnfitInMore,
    /// 20, and too little room.
    UnfitAndShort,
    /// 1, or done, in so many bytes of room.
    Room(usize),
    /// Done, and bytes past the record stayed.
    Past,
    /// There and back again: the same bytes.
    Back,
}

impl What {
    /// In words.
    fn name(self) -> String {
        match self {
            What::Done(kind) => KINDS[kind].into(),
            What::End(field, most) => format!("{} at its {}", NAMES[field], if most { "most" } else { "least" }),
            What::Faulty(fault) => format!("16 for {}", fault.name()),
            What::Length(length) => format!("16 for {length} bytes"),
            What::Flipped => "16 for other bits or numbers".into(),
            What::FaultyAndShort => "16 with short room".into(),
            What::Unfit(Unfit::Kind) => "20 for the kind".into(),
            What::Unfit(Unfit::Time) => "20 for the time".into(),
            What::Unfit(Unfit::Reset) => "20 for the reset".into(),
            What::UnfitInMore => "20 for more than one".into(),
            What::UnfitAndShort => "20 with short room".into(),
            What::Room(room) => format!("room of {room}"),
            What::Past => "bytes past it untouched".into(),
            What::Back => "there and back".into(),
        }
    }

    /// All that has to come up of a call.
    fn wanted(call: Call) -> Vec<What> {
        let form = call.form();
        let faults = if call.takes_numbers() { form.faults_of_numbers() } else { form.faults_of_bytes() };
        let kinds = if form.bytes == NEW.bytes && call != Call::Narrow { 6 } else { 3 };
        let mut wanted: Vec<What> = (0..kinds).map(What::Done).chain(faults.into_iter().map(What::Faulty)).collect();
        let ends = Form::used_up_to(kinds - 1).into_iter().flat_map(|field| [What::End(field, false), What::End(field, true)]);
        wanted.extend(ends);
        wanted.extend([What::Flipped, What::Back]);
        if !call.takes_numbers() {
            wanted.extend((0..=LONGEST).filter(|length| *length != form.bytes).map(What::Length));
        }
        if call.written().is_some() {
            wanted.extend((0..=LONGEST).map(What::Room).chain([What::FaultyAndShort, What::Past]));
        }
        if call == Call::Narrow {
            wanted.extend([Unfit::Kind, Unfit::Time, Unfit::Reset].map(What::Unfit));
            wanted.extend([What::UnfitInMore, What::UnfitAndShort]);
        }
        wanted
    }
}

/// Counts of what came up, and of the calls to each of two programs.
pub struct Seen {
    pub calls: u64,
    counts: BTreeMap<(Call, What), u64>,
}

impl Default for Seen {
    /// Nothing came up yet of all that has to.
    fn default() -> Seen {
        let wanted = Call::ALL.into_iter().flat_map(|call| What::wanted(call).into_iter().map(move |what| ((call, what), 0)));
        Seen { calls: 0, counts: wanted.collect() }
    }
}

impl Seen {
    pub fn see(&mut self, call: Call, what: What) {
        *self.counts.get_mut(&(call, what)).unwrap_or_else(|| panic!("{}: {}", call.name(), what.name())) += 1;
    }

    /// A call that was done on an event, as its form has it.
    pub fn see_done(&mut self, call: Call, form: &Form, event: &Event) {
        self.see(call, What::Done(event[KIND] as usize));
        form.at_ends(event).into_iter().for_each(|(field, most)| self.see(call, What::End(field, most)));
    }

    /// What has to come up and did not.
    pub fn missing(&self) -> Vec<String> {
        let never = self.counts.iter().filter(|(_, count)| **count == 0);
        never.map(|((call, what), _)| format!("{}: {}", call.name(), what.name())).collect()
    }
}

impl fmt::Display for Seen {
    fn fmt(&self, f: &mut fmt::Formatter) -> fmt::Result {
        write!(f, "{} calls on records to each", self.calls)?;
        for call in Call::ALL {
            let own = self.counts.iter().filter(|((of, _), _)| *of == call);
            let words: Vec<String> = own.map(|((_, what), count)| format!("{} {count}", what.name())).collect();
            write!(f, "\n{}: {}", call.name(), words.join(", "))?;
        }
        Ok(())
    }
}
