//! Further lines that are refused, each by the library's own answer to the text without the lines that it has refused before.

use crate::explain::fault::lines;
use crate::explain::refused::of_refusal;
use crate::explain::show::shown;
use crate::library::state::State;
use mbrumzheg::{ArmRefusal, Refusal};

/// So many are looked for.
const MOST: usize = 5;

/// What the library refuses after a line that it has refused: by their numbers in the whole text, and with their faults. One that is too many
/// depends on those before it, so it ends the list.
pub fn further(text: &[u8], first: ArmRefusal) -> Vec<String> {
    let mut left: Vec<(usize, &[u8])> = lines(text).into_iter().enumerate().map(|(place, line)| (place + 1, line)).collect();
    let mut said = Vec::new();
    let mut refused = first;
    while let Some(at) = refused.line.map(|line| line as usize - 1).filter(|at| *at < left.len() && refused.refusal != Refusal::TooMany) {
        left.remove(at);
        let rest: Vec<u8> = left.iter().flat_map(|(_, line)| line.iter().chain(b"\n")).copied().collect();
        let Err(next) = State::armed(&rest) else { return said };
        if next.refusal == Refusal::TooMany {
            return said;
        }
        let Some((number, line)) = next.line.and_then(|line| left.get(line as usize - 1)) else { return said };
        if said.len() == MOST {
            said.push("  and more".to_string());
            return said;
        }
        let block = shown(*number, line, &of_refusal(&rest, next));
        said.push(format!("line {number} would then be refused with {}\n{}", next.refusal.number(), block.join("\n")));
        refused = next;
    }
    said
}
