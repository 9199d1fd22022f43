//! The day's account in the evening: what each root and the firm have come to, as a table for people, as CSV, as JSON and on a page. The library has counted
//! it, by the accounted calls that every event goes through.

use crate::profile::Profile;
use crate::words::json::{list, object, text};
use crate::words::{counted, grouped, set_in, Amount};
use mbrumzheg::{Account, Column, Figures, Root};

/// The names of the columns in files; notional is in ten-thousandths of a dollar there.
const FIELDS: [&str; 9] = ["of", "accepted", "rejected", "fills", "contracts", "notional", "cuts", "trips", "away_reports"];
/// The names of the columns for people.
pub const HEADS: [&str; 9] = ["of", "accepted", "rejected", "fills", "contracts", "notional", "cuts", "trips", "away"];

/// The rows: the profile's roots by their names, then the firm.
pub fn rows(profile: &Profile, account: &Account) -> Vec<(String, Figures)> {
    let root = |(number, name): (usize, &String)| Some((name.clone(), account.root(Root::new(number as u64).ok()?)));
    let firm = (format!("firm {}", profile.firm), account.firm());
    profile.roots.iter().enumerate().filter_map(root).chain([firm]).collect()
}

/// A row as people read it.
pub fn cells((name, figures): &(String, Figures)) -> [String; 9] {
    let figure = |column: Column| match column {
        Column::Notional => Amount::Dollars(figures.of(column)).to_string(),
        _ => grouped(figures.of(column)),
    };
    let mut cells = HEADS.map(str::to_string);
    cells[0].clone_from(name);
    cells[1..].iter_mut().zip(Column::ALL).for_each(|(cell, column)| *cell = figure(column));
    cells
}

/// The table in 80 columns; where it is wider, each row in a sentence.
pub fn table(profile: &Profile, account: &Account) -> String {
    let rows = rows(profile, account);
    let lines: Vec<[String; 9]> = std::iter::once(HEADS.map(str::to_string)).chain(rows.iter().map(cells)).collect();
    let width = |column: usize| lines.iter().map(|cells| cells[column].len()).max().unwrap_or(0);
    let widths: [usize; 9] = std::array::from_fn(width);
    if widths.iter().sum::<usize>() + 2 * (widths.len() - 1) > 80 {
        return rows.iter().flat_map(|row| set_in(&sentence(row))).collect::<Vec<_>>().join("\n");
    }
    let line = |cells: &[String; 9]| {
        let name = format!("{:<1$}", cells[0], widths[0]);
        let figures = cells.iter().zip(widths).skip(1).map(|(cell, width)| format!("{cell:>width$}"));
        std::iter::once(name).chain(figures).collect::<Vec<_>>().join("  ")
    };
    lines.iter().map(line).collect::<Vec<_>>().join("\n")
}

fn sentence(row: &(String, Figures)) -> String {
    let [name, accepted, rejected, _, contracts, notional, cuts, trips, away] = cells(row);
    let fills = counted(row.1.of(Column::Fills) as usize, "fill");
    format!("{name}: {accepted} orders accepted, {rejected} rejected; {fills} of {contracts} contracts for {notional}; {cuts} cuts, {trips} trips, {away} away reports")
}

/// The table as lines of commas under the names of its columns.
pub fn csv_lines(profile: &Profile, account: &Account) -> Vec<String> {
    let row = |(name, figures): (String, Figures)| {
        let figures = figures.numbers().map(|figure| figure.to_string());
        std::iter::once(name).chain(figures).collect::<Vec<_>>().join(",")
    };
    std::iter::once(FIELDS.join(",")).chain(rows(profile, account).into_iter().map(row)).collect()
}

/// The table as a file of commas.
pub fn csv(profile: &Profile, account: &Account) -> String {
    csv_lines(profile, account).iter().map(|line| format!("{line}\r\n")).collect()
}

/// The rows as JSON objects.
pub fn json(profile: &Profile, account: &Account) -> Vec<String> {
    let row = |(name, figures): (String, Figures)| {
        let values = std::iter::once(text(&name)).chain(figures.numbers().map(|figure| figure.to_string()));
        object(&FIELDS.into_iter().zip(values).collect::<Vec<_>>())
    };
    rows(profile, account).into_iter().map(row).collect()
}

/// The rows as the served page shows them, the names of the columns first.
pub fn shown(profile: &Profile, account: &Account) -> String {
    let row = |cells: [String; 9]| list(cells.iter().map(|cell| text(cell)));
    list(std::iter::once(row(HEADS.map(str::to_string))).chain(rows(profile, account).iter().map(|each| row(cells(each)))))
}

#[cfg(test)]
mod tests {
    use super::{csv, table};
    use crate::profile::Profile;
    use mbrumzheg::{Account, ACCOUNT_SIZE};

    fn account(figures: &[(usize, u64)]) -> Account {
        let mut numbers = [0; ACCOUNT_SIZE];
        figures.iter().for_each(|(place, figure)| numbers[*place] = *figure);
        Account::from_numbers(numbers)
    }

    #[test]
    fn a_table_fits_eighty_columns_or_is_told_in_sentences() {
        let profile = Profile::of_accepted(b"ABCD,abs_vol,XYZ,5\nABCD,abs_vol,LONGER,5\n");
        let small = account(&[(0, 1), (3, 1_200), (4, 84_000_000), (15, 2), (512, 1), (515, 1_200), (516, 84_000_000), (519, 2)]);
        let lines = [
            "of         accepted  rejected  fills  contracts  notional  cuts  trips  away",
            "XYZ               1         0      0      1,200    $8,400     0      0     0",
            "LONGER            0         0      0          0        $0     0      0     2",
            "firm ABCD         1         0      0      1,200    $8,400     0      0     2",
        ];
        assert_eq!(table(&profile, &small), lines.join("\n"));
        let large = account(&[(512, 999_999_999_999), (515, 1_000_000_000_000_000_000), (516, 1_000_000_000_000_000_000)]);
        let told = table(&profile, &large);
        assert!(told.lines().all(|line| line.chars().count() <= 80), "{told}");
        assert!(told.contains("firm ABCD: 999,999,999,999 orders accepted"), "{told}");
    }

    #[test]
    fn files_have_the_librarys_numbers() {
        let profile = Profile::of_accepted(b"ABCD,abs_vol,XYZ,5\n");
        let wanted = "of,accepted,rejected,fills,contracts,notional,cuts,trips,away_reports\r\nXYZ,1,0,0,0,84000001,0,0,0\r\nfirm ABCD,0,0,0,0,0,0,7,0\r\n";
        assert_eq!(csv(&profile, &account(&[(0, 1), (4, 84_000_001), (518, 7)])), wanted);
    }
}
