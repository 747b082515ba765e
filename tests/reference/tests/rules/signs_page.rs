//! docs/SIGNS.md as the rows of its day give it: the tables, whole; the sentences stand beside.

#[path = "signs_sentences.rs"]
mod sentences;

use super::{roster, Worked};
use wire::{kind, Fields, BUY, SELL};

pub use sentences::assert_has_sentences;

const PAGE: &str = include_str!("../../../../docs/SIGNS.md");

/// The names of a row's figures.
const NAMES: [&str; 7] = ["S", "B", "V", "PCI", "PVI", "PCC", "PVC"];

/// Limits of the figures from `PCI` on.
const LIMITS: [&str; 4] = ["LCI", "LVI", "LCC", "LVC"];
const PCI: usize = 3;
const PVI: usize = 4;

/// The rows in which one of these limits is 0.
const PAST: [char; 4] = ['D', 'E', 'F', 'G'];

/// Lines of cells; the first is the header. The column of theorems is left out.
type Table = Vec<Vec<String>>;

/// A number as the page writes it.
pub fn written(number: i64) -> String {
    let digits = number.unsigned_abs().to_string();
    let mut text = String::new();
    for (place, digit) in digits.chars().enumerate() {
        if place > 0 && (digits.len() - place) % 3 == 0 {
            text.push(',');
        }
        text.push(digit);
    }
    if number < 0 {
        format!("−{text}")
    } else {
        text
    }
}

fn side(order: &Fields) -> &'static str {
    match order.side {
        BUY => "buy",
        SELL => "sell",
        other => panic!("side {other}"),
    }
}

/// An order, but for its id.
fn order(event: &Fields) -> String {
    let (side, quantity) = (side(event), written(event.figures[0]));
    format!("{side} {quantity} of {}", event.item)
}

/// An event as the page writes it.
fn words(event: &Fields) -> String {
    let Fields { item, id, .. } = event;
    let figure = written(event.figures[0]);
    match event.kind {
        kind::NEW => format!("{}, id {id}", order(event)),
        kind::BALANCE => format!("balance of {item} is {figure}"),
        kind::FILL => format!("fill {figure} of id {id}"),
        kind::REPLACE => format!("replace id {id}, total {figure}"),
        _ => format!("cancel id {id}"),
    }
}

/// K of the row's instrument.
fn weight(row: &Worked) -> i64 {
    i64::from(roster().instruments[usize::from(row.of.item) - 1].1)
}

fn sign(name: &str, number: i64) -> String {
    let relation = ["<", "=", ">"][(number.signum() + 1) as usize];
    format!("{name} {relation} 0")
}

fn beside_0(number: i64) -> &'static str {
    ["below 0", "0", "above 0"][(number.signum() + 1) as usize]
}

fn in_terms_of_s(number: i64, s: i64) -> &'static str {
    match number {
        0 => "0",
        _ if number == s => "S",
        _ if number == -s => "−S",
        _ => panic!("{number} where S is {s}"),
    }
}

/// What all of them say.
#[track_caller]
fn same<T: PartialEq + std::fmt::Debug>(said: impl IntoIterator<Item = T>) -> T {
    let mut said = said.into_iter();
    let first = said.next().expect("nothing was said");
    said.for_each(|other| assert_eq!(first, other));
    first
}

/// The rows of a letter.
fn block(rows: &[Worked], letter: char) -> Vec<&Worked> {
    let of_letter = |row: &&Worked| row.name.starts_with(letter);
    rows.iter().filter(of_letter).collect()
}

/// The orders of rows A to G that are of the same side and sign of K.
fn alike<'a>(rows: &'a [Worked], as_row: &Worked) -> Vec<&'a Worked> {
    let sort = |row: &Worked| (row.of.side, weight(row).signum());
    let blocks = "ABCDEFG".chars().flat_map(|letter| block(rows, letter));
    blocks.filter(|row| sort(row) == sort(as_row)).collect()
}

/// How a row moved one of its figures, by how much of its quantity, which is called by a letter.
fn moved(row: &Worked, figure: usize, letter: char) -> String {
    let (k, quantity) = (weight(row), row.event.figures[0]);
    let (amount, name) = match figure {
        ..=PVI => (quantity, format!("{letter}")),
        _ if k < 0 => (-k * quantity, format!("−K·{letter}")),
        _ => (k * quantity, format!("K·{letter}")),
    };
    match row.after[figure] - row.before[figure] {
        0 => "stays".to_string(),
        change if change == amount => format!("rises by {name}"),
        change if change == -amount => format!("falls by {name}"),
        change => panic!("{} moved {} by {change}", row.name, NAMES[figure]),
    }
}

/// The question that asks a limit: the only one that refuses where that limit alone is 0.
fn question(rows: &[Worked], limit: usize) -> u8 {
    let answers = block(rows, PAST[limit]).into_iter().map(|row| row.answer);
    same(answers.filter(|&answer| answer != 0))
}

/// What orders like this row's do to the position of a limit, and whether they are asked the limit's question.
fn effect(rows: &[Worked], row: &Worked, limit: usize) -> String {
    let (figure, number) = (PCI + limit, question(rows, limit));
    let alike = alike(rows, row);
    let accepted = alike.iter().filter(|row| row.answer == 0);
    let moved = same(accepted.map(|row| moved(row, figure, 'n')));
    let asks = match alike.iter().any(|row| row.answer == number) {
        true => format!("asks it against {}", LIMITS[limit]),
        false => "is not asked".to_string(),
    };
    format!("{} {moved}; {number} {asks}", NAMES[figure])
}

fn header(names: &[&str]) -> Vec<String> {
    names.iter().map(|name| name.to_string()).collect()
}

/// Section 1: each order of rows A, on the long and on the short side.
fn orders(rows: &[Worked]) -> Table {
    let mut table = vec![header(&[
        "Order",
        "K",
        "Limit's side",
        "Its instrument",
        "Its group",
        "Worked figure",
    ])];
    for row in block(rows, 'A') {
        for (name, own, group) in [("long", 0, 2), ("short", 1, 3)] {
            let [of_own, of_group] = [own, group].map(|limit| {
                let [before, after] = [row.before, row.after].map(|at| written(at[PCI + limit]));
                format!("{} {before} → {after}", NAMES[PCI + limit])
            });
            table.push(vec![
                format!("{} n", side(&row.of)),
                sign("K", weight(row)),
                name.to_string(),
                effect(rows, row, own),
                effect(rows, row, group),
                format!("{}: {of_own}, {of_group}", row.name),
            ]);
        }
    }
    table
}

/// Section 2: the answers of rows D to G, each order with each limit at 0.
fn past_one_limit(rows: &[Worked]) -> Table {
    let blocks = PAST.map(|letter| block(rows, letter));
    let mut table = vec![header(&["Order", "K"])];
    table[0].extend(LIMITS.map(|limit| format!("{limit} 0")));
    for place in 0..blocks[0].len() {
        let rows = [0, 1, 2, 3].map(|limit| blocks[limit][place]);
        for (limit, row) in rows.into_iter().enumerate() {
            assert!(row.before[PCI + limit] > 0, "{}", row.name);
        }
        let mut line = vec![same(rows.map(|row| order(&row.event)))];
        line.push(sign("K", weight(rows[0])));
        line.extend(rows.map(|row| format!("{} ({})", row.answer, row.name)));
        table.push(line);
    }
    table
}

fn names(rows: &[&Worked], between: &str) -> String {
    let names: Vec<&str> = rows.iter().map(|row| row.name).collect();
    names.join(between)
}

fn balances_of(rows: &[Worked]) -> impl Iterator<Item = &Worked> {
    rows.iter().filter(|row| row.event.kind == kind::BALANCE)
}

/// Section 3: the signs of the positions, by the signs of S and of K.
fn balances(rows: &[Worked]) -> Table {
    let mut table = vec![header(&["S", "K", "PCI and PVI", "PCC and PVC", "Run"])];
    for (s, k) in [(-1, 1), (1, 1), (-1, -1), (1, -1)] {
        let of_signs = |row: &&Worked| row.after[0].signum() == s && weight(row).signum() == k;
        let alike: Vec<&Worked> = balances_of(rows).filter(of_signs).collect();
        let signs = |long: usize| {
            let of_row = |row: &&Worked| [row.after[long], row.after[long + 1]].map(beside_0);
            same(alike.iter().map(of_row)).join(", ")
        };
        table.push(vec![
            sign("S", s),
            sign("K", k),
            signs(3),
            signs(5),
            names(&alike, ", "),
        ]);
    }
    let at_0 = |row: &&Worked| weight(row) == 0;
    let at_0: Vec<&Worked> = balances_of(rows).filter(at_0).collect();
    assert!([-1, 1].map(|s| at_0.iter().any(|row| row.after[0].signum() == s)) == [true; 2]);
    let terms = |long: usize| {
        let of_row =
            |row: &&Worked| [long, long + 1].map(|at| in_terms_of_s(row.after[at], row.after[0]));
        same(at_0.iter().map(of_row)).join(" and ")
    };
    table.push(vec![
        "any".to_string(),
        sign("K", 0),
        terms(3),
        terms(5),
        names(&at_0, ", "),
    ]);
    let all = block(rows, 'H');
    let ends = names(&[all[0], all[all.len() - 1]], " to ");
    let mut others = header(&["of another account", "any", "stay", "stay"]);
    others.push(format!("{ends} leave account 1 as it was"));
    table.push(others);
    table
}

/// Section 4: what a fill moves, in part and of the rest.
fn fills(rows: &[Worked]) -> Table {
    let mut table = vec![header(&["Filled", "K"])];
    table[0].extend(NAMES.map(str::to_string));
    table[0].push("Run".to_string());
    for fills in block(rows, 'J').chunks(2) {
        let filled = same(fills.iter().map(|row| row.of));
        let run = fills.iter().map(|row| {
            let open = row.after[usize::from(filled.side)];
            let part = if open > 0 { "in part" } else { "the rest" };
            format!("{} {part}", row.name)
        });
        let mut line = vec![format!("{}, q", side(&filled)), sign("K", weight(fills[0]))];
        line.extend((0..7).map(|figure| same(fills.iter().map(|row| moved(row, figure, 'q')))));
        line.push(run.collect::<Vec<_>>().join(", "));
        table.push(line);
    }
    table
}

/// The rows of a letter, as they were worked.
fn day(rows: &[Worked], letter: char) -> Table {
    let mut table = vec![header(&["Row", "Account", "Event", "Answer"])];
    table[0].extend(NAMES.map(str::to_string));
    for row in block(rows, letter) {
        let mut line = vec![row.name.to_string(), row.of.account.to_string()];
        line.push(words(&row.event));
        line.push(row.answer.to_string());
        line.extend(row.after.map(written));
        table.push(line);
    }
    table
}

/// The tables that the day gives, in the page's order.
fn tables(rows: &[Worked]) -> Vec<Table> {
    let days = |letters: &str| -> Vec<Table> {
        let letters = letters.chars();
        letters.map(|letter| day(rows, letter)).collect()
    };
    let mut tables = vec![orders(rows)];
    tables.extend(days("ABC"));
    tables.push(past_one_limit(rows));
    tables.extend(days("DEFG"));
    tables.push(balances(rows));
    tables.extend(days("H"));
    tables.push(fills(rows));
    tables.extend(days("JKL"));
    tables
}

fn cells(line: &str) -> Vec<String> {
    let inner = line.strip_prefix('|').and_then(|l| l.strip_suffix('|'));
    let inner = inner.unwrap_or_else(|| panic!("a line of a table: {line}"));
    inner
        .split('|')
        .map(|cell| cell.trim().to_string())
        .collect()
}

/// The tables of the page, with every column.
fn tables_on_page() -> Vec<Table> {
    let lines: Vec<&str> = PAGE.lines().collect();
    let blocks = lines.split(|line| !line.starts_with('|'));
    let tables = blocks.filter(|lines| !lines.is_empty());
    let read = |lines: &[&str]| {
        let mut table: Table = lines.iter().map(|line| cells(line)).collect();
        let rule = table.remove(1);
        assert_eq!(rule, vec!["---"; table[0].len()], "under {}", lines[0]);
        table
    };
    tables.map(read).collect()
}

fn column(table: &Table, name: &str) -> Option<usize> {
    table[0].iter().position(|cell| cell == name)
}

/// The page has the tables of the day, in their order, and none beside them but those that name edits or proofs.
pub fn assert_has_tables(rows: &[Worked]) {
    let (mut of_day, mut others) = (Vec::new(), Vec::new());
    for mut table in tables_on_page() {
        let edits = column(&table, "Edits that the prover refuses");
        if edits.is_some() || column(&table, "Refused").is_some() {
            others.push(table);
            continue;
        }
        if let Some(theorem) = column(&table, "Theorem") {
            table.iter_mut().for_each(|line| drop(line.remove(theorem)));
        }
        of_day.push(table);
    }
    let expected = tables(rows);
    for (on_page, expected) in of_day.iter().zip(&expected) {
        for (on_page, expected) in on_page.iter().zip(expected) {
            assert_eq!(on_page.join(" | "), expected.join(" | "));
        }
        assert_eq!(on_page.len(), expected.len(), "under {:?}", expected[0]);
    }
    assert_eq!(of_day.len(), expected.len());
    for table in others
        .iter()
        .filter(|table| column(table, "Refused").is_some())
    {
        assert_refuses(rows, table);
    }
}

/// Each number by which an order is said to be refused is one that refused an order like it.
fn assert_refuses(rows: &[Worked], table: &Table) {
    for line in &table[1..] {
        let of_line =
            |row: &&Worked| [side(&row.of).to_string(), sign("K", weight(row))] == line[..2];
        let row = block(rows, 'A').into_iter().find(of_line);
        let row = row.unwrap_or_else(|| panic!("no order like {line:?}"));
        for said in line[2].split("by ").skip(1) {
            let number: u8 = said[..2].parse().expect("a number");
            let refused = alike(rows, row).iter().any(|row| row.answer == number);
            assert!(refused, "{number} of {line:?}");
        }
    }
}
