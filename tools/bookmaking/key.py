"""The key to the notation: what is written, what it means, and the names of the kit that the line explains."""

KEY = [
    ("a ≡ b", "`a` and `b` are the same.", "◌≡◌"),
    ("P ↔ Q", "`P` holds exactly if `Q` does.", "◌↔◌"),
    ("P ⊎ Q", "`P` or `Q`: the value says which, and holds what shows it.", "◌⊎◌"),
    ("A → B", "A function from `A` to `B`; between statements: if `A` then `B`. `(x : A) → P` is: `P` for every `x`. In `{x : A}` the `x` is found by itself.", ""),
    ("A × B", "Both. `(x : A) × P` is: there is an `x` for which `P`. A pair `p` has the parts `p.0` and `p.1`. `Unit` says nothing.", ""),
    ("P → ⊥", "`P` does not hold.", ""),
    ("λ x. e", "The function that gives `e` for `x`.", ""),
    ("cond b x y", "`x` if the test `b` is `true`, else `y`.", "cond"),
    ("Bool", "A test's answer, `true` or `false`, with `not`, `&&` (and), `||` (or), and `beq` (whether two are the same).",
     "Bool true false not ◌&&◌ ◌||◌ beq"),
    ("ℕ", "The numbers 0, 1, 2 and so on, without end. `suc n` is n + 1, so a line for `zero` and one for `suc n` cover them all. `0x40` is written to base 16.", "ℕ zero suc"),
    ("a - b, a / b, a % b", "`a` less `b`, and 0 where `b` is larger; the quotient without its rest; the rest. `+`, `*`, `^`, `min` and `max` are as usual.",
     "◌+◌ ◌-◌ ◌*◌ ◌/◌ ◌%◌ ◌^◌ min max"),
    ("leb a b, ltb a b, eqb a b", "The tests for `a ≤ b`, for `a < b`, and for `a` and `b` the same; `nat_lt a b` and `a == b` are the last two again.", "◌≤◌ ◌<◌ leb ltb eqb nat_lt ◌==◌"),
    ("List A", "A list: `[]`, which is empty, or `x ∷ xs`, which has `x` in front. `xs ++ ys` is one after the other.", "List [] ◌∷◌ ◌++◌"),
    ("length xs, take n xs, drop n xs", "How long a list is; its first `n`; what comes after them. `get_or xs i d` is what stands at place `i`, counted from 0, and `d` where "
     "the list is too short, `slice_index xs i` the same of numbers, with 0; `set xs i x` is the list with `x` there, and `sets xs i ys` the list with the numbers of `ys` in the places from `i` on.", "length take drop get_or slice_index set sets"),
    ("Option A, Result A E", "`Some x` or `None`: an `A`, or nothing. `Ok x` or `Err e`: an `A`, or an `E` that says why there is none. `is_some o` is the test for a `Some`, "
     "`unwrap_or o d` what it holds, and `d` where it holds nothing.", "Option Some None Result Ok Err is_some unwrap_or"),
    ("map f xs", "`f` of each, in order. `replicate n x` is `n` times `x`. `Memᴰ x xs` is: `x` is one of `xs`.", "map replicate Memᴰ"),
    ("String, code", "A text, and the number of one of its characters.", "String [] ◌∷◌ code"),
    ("record R where ..", "What an `R` has, by name. `record { a = x; b = y }` makes one; `r.a` is its `a`. If its parts are statements, `R` says all of them.", ""),
    ("data D where ..", "What a `D` can be. A line `f (case x) = e` says what `f` gives in one case. `pub enum` is the same in a file of code, `pub struct` a record.", ""),
    ("Type 0", "A definition that gives a `Type 0` says something, as a statement does; one that gives a `Bool` is a test.", ""),
    ("module _ (x : A) where", "What follows is said for every `x`.", ""),
    ("m.now, m.old, m.new", "The numbers in memory `m`; where it is lent to be written, as the call finds them, and as it leaves them. `ensures { P }` is: `P` holds of the answer "
     "`result`, and a clause may have a name; `requires` is what the caller has to see to. `u64` is a number of 64 bits, `&mut [u64]` memory lent to be written, `&[u8]` bytes lent to be read.", ""),
    ("f-kinds, f-reads", "What the check makes of the function `f`'s own types and clauses: `Asked` is what `f` requires, `Learnt` what it ensures. "
     "Of the words in `Determines`, `κs` are how long loans last, `args` what is handed in, `res_t` is the answer's type, and `at_exit` what was lent, as the call leaves it.",
     "ParamKind ResultKind In Out Dens res_t ended_of Lfts Lasts at_exit"),
    ("WritesInCalls took w bs v", "Some calls, each as `took` tells of it, take the writer `w` to `v`, and write the bytes `bs` together. A `Formatter` prints to a writer, which is its "
     "`formatter_writer`, and `IsFlush` is: it indents nothing. `IsOk r` is: the answer `r` is an `Ok`, and not an `Error`. Of a writer's type `W` the check has its `Laws` and, in `Ghosts` and `Dict`, "
     "what it says of its own calls: `write_str_gives` tells of one.", "WritesInCalls Formatter formatter_writer IsFlush IsOk Error RattleType Laws Ghosts Dict"),
    ("pub, abbrev, unfoldable", "Words for the checker. A reader may pass over them.", ""),
]


def explained():
    return {name for _, _, names in KEY for name in names.split()}
