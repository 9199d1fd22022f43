//! The step of a call that the second program's generators make.

use second::gen::{self, Call};

use super::{Kind, Step};

impl From<Call> for Step {
    fn from(call: Call) -> Step {
        match call {
            Call::Arm { seed } => Step::arm(gen::profile(seed)),
            Call::ArmValid { seed } => Step::arm(gen::valid_profile(seed)),
            Call::Clear => Step::new(Kind::Clear, &[]),
            Call::Order { time, root, reset } => Step::new(Kind::Order, &[time, root, reset]),
            Call::Lockout { time, level, root } => Step::new(Kind::Lockout, &[time, level, root]),
            Call::Offer { time, root, unit, premium, contracts } => Step::new(Kind::Offer, &[time, root, unit, premium, contracts]),
            Call::Send { time, order } => Step::send(time, order),
            Call::Report { time, identity, contracts } => Step::new(Kind::Report, &[time, identity, contracts]),
            Call::Close { time, identity } => Step::new(Kind::Close, &[time, identity]),
            Call::Remaining { time, rule, unit } => Step::new(Kind::Remaining, &[time, rule, unit]),
            Call::Status => Step::new(Kind::Status, &[]),
            Call::Text { verdict, room } => Step::new(Kind::Text, &[verdict, room]),
            Call::Profile { room } => Step::new(Kind::Profile, &[room]),
        }
    }
}
