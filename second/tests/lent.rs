//! The unit over lent numbers: the refusals that the memory decides, and what a call leaves.

use second::lent::Lent;
use second::memory;
use second::place::{LOG, MARK, NUMBERS};

#[test]
fn lent_numbers_are_refused_by_1_then_4_then_2() {
    let mut lent = Lent::new(vec![0; NUMBERS + 2]);
    assert_eq!(lent.ask(|unit| unit.status().numbers()), [4, 0, 0, 0, 0]);
    lent.numbers_mut()[MARK] = 1;
    assert_eq!(lent.ask(|unit| unit.status().numbers()), [2, 0, 0, 0, 0]);
    assert_eq!(lent.arm(b"A,abs_vol,Q,5"), [3, 0, 0, 0, 0]);
    lent.set_length(NUMBERS - 1);
    assert_eq!(lent.change(|unit| unit.order(0, 0, 0).numbers()), [1, 0, 0, 0, 0]);
    assert_eq!([lent.arm(b""), lent.clear()], [[1, 0, 0, 0, 0]; 2]);
    assert_eq!(lent.numbers()[MARK], 1);
    lent.set_length(NUMBERS);
    assert_eq!(lent.clear(), [0; 5]);
    lent.numbers_mut()[LOG] = 5;
    assert_eq!(lent.arm(b"A,abs_vol,Q"), [6, 1, 0, 0, 0]);
    assert_eq!(lent.numbers()[LOG], 5, "a refusal changes nothing");
    assert_eq!(lent.arm(b"A,abs_vol,Q,5"), [0, 0, 0x41, 1, 1]);
    let mut numbers = vec![7; NUMBERS];
    memory::write(lent.clone().unit().armed.as_ref().expect("an armed unit"), &mut numbers);
    assert_eq!(lent.numbers()[..NUMBERS], numbers);
}
