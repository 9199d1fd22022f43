//! A profile's text, read once from front to end.

use super::map::*;

/// What an accepted profile gives.
pub struct Profile {
    pub firm: u64,
    pub rules: usize,
    pub roots: usize,
    firms: usize,
    names: [u64; MOST_ROOTS],
    table: [u64; 2 * MOST_RULES],
    units: [[u8; 4]; MOST_ROOTS],
}

/// A line that is well formed.
struct Line {
    firm: u64,
    measure: u64,
    is_absolute: bool,
    root: u64,
    limit: u64,
    time: u64,
    asks_firm: bool,
    /// 0 for an empty field, 1 or 2 for its two letters.
    side: u64,
    month: u64,
}

/// A place in the text, past whose end LF stands.
struct Cursor<'a> {
    text: &'a [u8],
    at: usize,
}

/// The refusal of a line that is malformed.
type Malformed = u64;

impl<'a> Cursor<'a> {
    fn new(text: &'a [u8]) -> Cursor<'a> {
        Cursor { text, at: 0 }
    }

    /// The next byte, LF past the end.
    fn byte(&self) -> u8 {
        self.text.get(self.at).copied().unwrap_or(b'\n')
    }

    /// Goes past a comma that has to stand here.
    fn comma(&mut self) -> Result<(), Malformed> {
        if self.byte() != b',' {
            return Err(6);
        }
        self.at += 1;
        Ok(())
    }

    /// Goes past a comma if one stands here, and says whether one did.
    fn has_more(&mut self) -> bool {
        let is_comma = self.byte() == b',';
        self.at += usize::from(is_comma);
        is_comma
    }

    /// The number of a name of at most so many capitals and digits, 0 for an empty one.
    fn name(&mut self, most: usize) -> Result<u64, Malformed> {
        let (mut name, start) = (0, self.at);
        while matches!(self.byte(), b'0'..=b'9' | b'A'..=b'Z') {
            name = name << 8 | u64::from(self.byte());
            self.at += 1;
            if self.at - start > most {
                return Err(6);
            }
        }
        Ok(name)
    }

    /// The number of at most 12 digits, and how many they are.
    fn digits(&mut self) -> Result<(u64, usize), Malformed> {
        let (mut number, start) = (0, self.at);
        while self.byte().is_ascii_digit() {
            number = number * 10 + u64::from(self.byte() - b'0');
            self.at += 1;
            if self.at - start > 12 {
                return Err(6);
            }
        }
        Ok((number, self.at - start))
    }

    /// Goes past the word if it stands here.
    fn word(&mut self, word: &[u8]) -> bool {
        let stands = self.text[self.at..].starts_with(word);
        self.at += if stands { word.len() } else { 0 };
        stands
    }

    /// Whether the type is absolute, and its measure.
    fn limit_type(&mut self) -> Result<(bool, u64), Malformed> {
        let is_absolute = !self.word(b"rate_");
        if is_absolute && !self.word(b"abs_") {
            return Err(6);
        }
        for (measure, word) in [(0, &b"ntnl"[..]), (1, b"vol"), (2, b"count")] {
            if self.word(word) {
                return Ok((is_absolute, measure));
            }
        }
        Err(6)
    }

    /// Goes to the end of a field of any bytes, and gives it.
    fn any(&mut self) -> &'a [u8] {
        let start = self.at;
        while !matches!(self.byte(), b',' | b'\n') {
            self.at += 1;
        }
        &self.text[start..self.at]
    }

    /// 1 or 2 for one of two letters, 0 for an empty field.
    fn letter(&mut self, one: u8, two: u8) -> u64 {
        let byte = self.byte();
        let letter = if byte == one { 1 } else { 2 * u64::from(byte == two) };
        self.at += usize::from(letter > 0);
        letter
    }

    /// The line that begins here; the cursor goes to the beginning of the next.
    fn line(&mut self) -> Result<Line, Malformed> {
        let firm = self.name(4)?;
        self.comma()?;
        let (is_absolute, measure) = self.limit_type()?;
        self.comma()?;
        let root = self.name(6)?;
        self.comma()?;
        let (limit, digits) = self.digits()?;
        let mut line = Line { firm, measure, is_absolute, root, limit, time: 0, asks_firm: false, side: 0, month: 0 };
        self.tail(&mut line)?;
        if firm == 0 || digits == 0 || self.byte() != b'\n' {
            return Err(6);
        }
        self.at += 1;
        Ok(line)
    }

    /// The fields that may be absent.
    fn tail(&mut self, line: &mut Line) -> Result<(), Malformed> {
        if !self.has_more() {
            return Ok(());
        }
        if line.is_absolute {
            self.any();
        } else {
            line.time = self.digits()?.0;
        }
        if !self.has_more() {
            return Ok(());
        }
        line.asks_firm = self.any() == b"T";
        if !self.has_more() {
            return Ok(());
        }
        line.side = self.letter(b'C', b'P');
        if self.has_more() {
            line.month = self.letter(b'F', b'T');
        }
        Ok(())
    }
}

impl Line {
    /// The lowest refusal of 7 to 10 that applies.
    fn refusal(&self, firm: u64) -> Result<(), u64> {
        let most = if self.measure == 0 { 100_000_000_000 } else { 1_000_000_000 };
        if self.firm != firm {
            return Err(7);
        }
        if self.limit.wrapping_sub(1) >= most || self.time > MOST_WINDOW {
            return Err(8);
        }
        if (self.root != 0) == self.asks_firm {
            return Err(9);
        }
        if (self.side != 0) != (self.month != 0) || self.asks_firm && self.side != 0 {
            return Err(10);
        }
        Ok(())
    }

    /// The two numbers of the rule with this number for its root.
    fn numbers(&self, root: u64) -> [u64; 2] {
        let window = if self.is_absolute { 0 } else { self.time.max(100) };
        let scope = match (self.asks_firm, self.side) {
            (true, _) => 0,
            (_, 0) => 1 << 8 | root << 2,
            _ => 2 << 8 | root << 2 | (self.side - 1) << 1 | (self.month - 1),
        };
        [self.limit << 27 | window, self.measure << 11 | u64::from(self.is_absolute) << 10 | scope]
    }
}

impl Profile {
    fn new() -> Profile {
        let (names, table, units) = ([0; MOST_ROOTS], [0; 2 * MOST_RULES], [[0; 4]; MOST_ROOTS]);
        Profile { firm: 0, rules: 0, roots: 0, firms: 0, names, table, units }
    }

    /// Takes the rule of a line in, unless there is one too many.
    fn admit(&mut self, line: &Line) -> Result<(), u64> {
        if self.rules == MOST_RULES {
            return Err(11);
        }
        let root = if line.asks_firm { self.admit_firm() } else { self.admit_root(line) }.ok_or(11u64)?;
        self.table[2 * self.rules..][..2].copy_from_slice(&line.numbers(root as u64));
        self.rules += 1;
        Ok(())
    }

    /// Counts a firm rule.
    fn admit_firm(&mut self) -> Option<usize> {
        self.firms += 1;
        (self.firms <= 10).then_some(0)
    }

    /// The number of a root: most often that of the newest.
    fn root_number(&self, name: u64) -> usize {
        match self.names[..self.roots].split_last() {
            Some((newest, _)) if *newest == name => self.roots - 1,
            Some((_, others)) => others.iter().position(|other| *other == name).unwrap_or(self.roots),
            None => 0,
        }
    }

    /// Counts a rule of a root, and gives the root's number.
    fn admit_root(&mut self, line: &Line) -> Option<usize> {
        let root = self.root_number(line.root);
        let units = self.units.get_mut(root)?;
        match line.side {
            0 => units.iter_mut().for_each(|count| *count += 1),
            side => units[((side - 1) << 1 | (line.month - 1)) as usize] += 1,
        }
        self.names[root] = line.root;
        self.roots = self.roots.max(root + 1);
        units.iter().all(|count| *count <= 6).then_some(root)
    }

    /// Writes a freshly armed state.
    pub fn write(&self, m: &mut State) {
        m[MARK] = 1;
        m[CLOCK] = 0;
        m[FIRM] = self.firm;
        m[ROOT_COUNT] = self.roots as u64;
        m[ROOTS..RULE_COUNT].copy_from_slice(&self.names);
        m[RULE_COUNT] = self.rules as u64;
        m[RULES..TOTALS].copy_from_slice(&self.table);
        m[TOTALS..].fill(0);
    }
}

/// Reads a profile, or gives the refusal and the line, 0 for the whole text.
pub fn read(text: &[u8]) -> Result<Profile, (u64, u64)> {
    if text.is_empty() || text.len() > 65_536 {
        return Err((5, 0));
    }
    let mut profile = Profile::new();
    let mut cursor = Cursor::new(text);
    while cursor.at < text.len() {
        let number = profile.rules as u64 + 1;
        add(&mut profile, &mut cursor).map_err(|refusal| (refusal, number))?;
    }
    Ok(profile)
}

/// Adds the rule of the next line.
fn add(profile: &mut Profile, cursor: &mut Cursor) -> Result<(), u64> {
    let line = cursor.line()?;
    if profile.rules == 0 {
        profile.firm = line.firm;
    }
    line.refusal(profile.firm)?;
    profile.admit(&line)
}
