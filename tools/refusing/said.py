"""What a check says of a wrong version: that a fact refutes it, or why it shows nothing."""

import re

from edits import function_at

REFUSED = "refused"
LATER = "later"
SHAPE = "is refused for its proof's shape, not for a fact"
# what the checker says of a proof whose parts no longer fit the code or the statement: a name, a field or a part that is gone, a half taken of what is
# no pair, or a tactic used on what it is not for; and of a check that a limit of its own has ended
UNFIT = re.compile(
    r"has no `[^`]*` that can be named from here|has no field|is not a field of|not in scope|projects from a `×` type or a record|proves only a path|is no name"
    r"|ran out of (?:stack|the steps|the memory|steps|memory)|outgrew the memory limit|stopped at the step limit"
)
# a goal of a function that no answer is for and that the tactics did not prove
OPENED = re.compile(r"^note: (?:\./)?(src/\S+?\.rt):(\d+):\d+: it is not proved that (.*)$", re.M)
# values at which such a goal does not hold
REFUTED = "allow values at which this goal is false"


def reached(said):
    """True if the check reached the prover."""
    return re.search(r"^logic=", said, re.M) is not None


def statuses_in(said):
    """What a check says of each function."""
    return dict(re.findall(r"^fn ([\w:]+): (.*)$", said, re.M))


def errors_in(said):
    """The errors of a check, each with the lines that belong to it, without those that only say that something cited was not admitted."""
    errors, own = [], False
    for line in said.splitlines():
        if ": error: " in line:
            own = "not admitted" not in line
            errors += [line] if own else []
        elif own and line.startswith("  "):
            errors[-1] += "\n" + line
        else:
            own = False
    return errors


def is_fact(error):
    """True if an error is not about a proof's shape: its first line says what is wrong, and the lines after it may give advice."""
    return not UNFIT.search(error.splitlines()[0])


def own_errors(function, said):
    """The errors in the proof files of a function."""
    place = "proofs/" + "/".join(function.split("::")[1:])
    return [error for error in errors_in(said) if re.match(rf"(?:\S*/)?{place}/[A-Z]\w*\.antt:", error)]


def opened_in(crate, texts, said):
    """The goals that are left open, each with its function and with what is said of it; texts are the crate's sources as they were checked."""
    return [(function_at(crate, file, texts[file], int(line)), words) for file, line, words in OPENED.findall(said) if file in texts]


def meaningless(said):
    """The first error in the edited text itself, '' if there is none: what stands in specs/ and src/ only has to mean something."""
    return next((error for error in errors_in(said) if re.match(r"(?:\S*/)?(?:specs|src)/\S*: error: ", error)), "")


def shown(function, opened, said):
    """What a check shows against a function: 'fact', 'shape' or nothing."""
    errors, own = own_errors(function, said), [words for name, words in opened if name == function]
    if any(map(is_fact, errors)) or any(REFUTED in words for words in own):
        return "fact"
    # a goal that the tactics proved before and do not now; one whose name is new may have lost the answer that was for it, and is no more than hard
    return "shape" if errors else "fact" if own else ""


def of_function(edit, texts, said):
    """What a check says of an edit of a function's body: refused, left for later, or what is wrong."""
    status = statuses_in(said).get(edit.function)
    if status is None:
        return f"the check says nothing of {edit.function}"
    if status == "proved":
        return f"NOT REFUSED: {edit.function} is still proved"
    seen = shown(edit.function, opened_in(edit.crate, texts, said), said)
    if seen == "fact":
        return REFUSED
    if seen == "shape":
        return f"{edit.function} {SHAPE}"
    return LATER if "it calls " in status else f"no fact fails: {edit.function} is {status}"


def of_anything(edit, texts, said):
    """What a check says of an edit of a definition, a contract or a constant: refused, or what is wrong."""
    if not reached(said):
        return "it does not reach the prover: " + " ".join(said.split())[:300]
    if re.search(r"^logic=proved", said, re.M):
        return "NOT REFUSED: the crate is still proved"
    if meaningless(said):
        return "the edited text means nothing: " + meaningless(said)[:300]
    opened = opened_in(edit.crate, texts, said)
    facts = any(map(is_fact, errors_in(said))) or any(shown(name, opened, said) == "fact" for name, _ in opened)
    return REFUSED if facts else "it is refused for the shape of proofs, not for a fact"


def of_each(edits, texts, said):
    """What one check for edits of different functions says of each, in pairs."""
    functions = {edit.function for edit in edits}
    stray = [name for name, status in statuses_in(said).items() if name not in functions and status != "proved" and "it calls " not in status]
    if stray:
        return [(edit, f"{', '.join(stray)} fails beside it") for edit in edits]
    return [(edit, of_function(edit, texts, said)) for edit in edits]


# what an error of a fact says in its first words
FACT = re.compile(
    r"the two (?:types|values|sides)|expected type `|no proof of|the goal does not follow|no occurrence of the path|give a proof of that as|list the missing equation"
)


def of_rts(edit, texts, line):
    """What rt said of a must-fail edit, which is its first words alone: refused, if these show a fact against it, or '' if it has to be tried to know."""
    said = line.partition(": refused, as it must be: ")[2]
    if ": error: " in said:
        in_place = own_errors(edit.function, said) if edit.function else re.match(r"(?:\S*/)?proofs/", said)
        return REFUSED if in_place and is_fact(said) and FACT.search(said) else ""
    opened = [(name, words) for name, words in opened_in(edit.crate, texts, said) if "allow values at which" in words]
    return REFUSED if any(name and edit.function in ("", name) for name, _ in opened) else ""


def new_names(function, folder, said):
    """The names that a proof's files have to take where an edit has changed what a condition or a place is called: for each that is gone the one name
    that has come, is like it and is in none of the files."""
    there = set(re.findall(NAME, "\n".join(path.read_text() for path in folder.glob("*.antt"))))
    fields, goals = {}, {}
    for error in own_errors(function, said):
        first, _, rest = error.partition("\n")
        gone = re.search(r"has no (?:field )?`([^`]*)`", first)
        if not gone:
            continue
        if ".Goals` has no" in first:
            asked = re.search(rf"^help: `Goals` has no [^;]*`{re.escape(gone[1])}`[^;]*; (.*)$", said, re.M)
            goals[gone[1]] = asked[1] if asked else ""
        else:
            fields[gone[1]] = rest
    found = {name: come for name, listed in fields.items() if (come := the_one_like(name, listed, there))}
    # a condition `if-X` has its X in the names of the goals behind it
    turned = {f"-{name[3:]}": f"-{come[3:]}" for name, come in found.items() if name.startswith("if-")}
    for name, listed in goals.items():
        by_condition = [name.replace(old, new) for old, new in turned.items() if f"{name}-".count(f"{old}-") == 1]
        known = [come for come in by_condition if f"`{come}`" in listed or " more;" in listed]
        come = known[0] if len(known) == 1 else the_one_like(name, listed, there)
        if come:
            found[name] = come
    return found


def the_one_like(name, listed, there):
    """Of the names listed, none of which is in the files, the one that is like a name: in all parts but one, or else in how many they are, or else in that it
    is a condition's."""
    come = [other for other in dict.fromkeys(re.findall(r"`([^`]*)`", listed)) if other not in there and parts_of(other)[0] == parts_of(name)[0]]
    as_long = [other for other in come if len(parts_of(other)) == len(parts_of(name)) > 1]
    in_one = [other for other in as_long if sum(one != two for one, two in zip(parts_of(name), parts_of(other))) < 2]
    alike = in_one or as_long or (come if name.startswith("if-") else [])
    return alike[0] if len(alike) == 1 else ""


NAME = r"[^\s.(){};,`]+"


def parts_of(name):
    """The parts of a name between its hyphens, without what says that a condition is turned round."""
    return [part for part in name.split("-") if part != "not"] or [name]


def with_names(text, names):
    return re.sub(NAME, lambda word: names.get(word[0], word[0]), text)
