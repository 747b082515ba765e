//! The sentences of docs/SIGNS.md that have figures, as the rows of its day give them.

use super::super::{roster, Worked, FAR, GROUP, LONG, OPEN, OWN, PARTS, SHORT, TRADING};
use super::{
    balances_of, block, in_terms_of_s, names, question, same, side, weight, written, NAMES, PAGE,
    PCI, PVI,
};
use wire::{kind, BUY, SELL};

/// The roster.
fn of_roster() -> String {
    let spec = roster();
    let instruments = (1..).zip(&spec.instruments).map(|(instrument, &(_, k))| {
        let put = if k < 0 { " (a put)" } else { "" };
        format!("instrument {instrument} has K = {}{put}", written(k.into()))
    });
    let instruments = instruments.collect::<Vec<_>>().join(", ");
    let sizes = [spec.accounts, spec.groups].map(|size| written(size.into()));
    let contracts = spec.groups_of.len();
    format!(
        "{} accounts, {} group, {contracts} contract; {instruments}.",
        sizes[0], sizes[1]
    )
}

/// Which figure an accepted order raises, of those from `first` to `last`.
fn raised(row: &Worked, first: usize, last: usize) -> &'static str {
    let mut raised = (first..=last).filter(|&figure| row.after[figure] != row.before[figure]);
    let figure = raised.next().expect("a figure that moves");
    assert!(raised.next().is_none() && row.after[figure] > row.before[figure]);
    NAMES[figure]
}

/// What a buy and a sell add to.
fn of_orders(rows: &[Worked]) -> [String; 2] {
    let a = block(rows, 'A');
    let of = |side: u8, first: usize, last: usize| {
        let of_side = a.iter().filter(|row| row.of.side == side);
        same(of_side.map(|row| raised(row, first, last)))
    };
    let in_group = |side: u8, k: i64| {
        let of_sort = |row: &&&Worked| row.of.side == side && weight(row).signum() == k;
        same(a.iter().filter(of_sort).map(|row| raised(row, 5, 6)))
    };
    let groups = [BUY, SELL].map(|side| {
        let [above, below] = [1, -1].map(|k| in_group(side, k));
        format!("in {above} where K > 0 and in {below} where K < 0")
    });
    [
        format!(
            "A buy adds to {} and a sell to {}, ",
            of(BUY, 0, 2),
            of(SELL, 0, 2)
        ),
        format!(
            "a buy can only move {}, a sell only {}; in the group, a buy counts {}, a sell {}.",
            of(BUY, PCI, PVI),
            of(SELL, PCI, PVI),
            groups[0],
            groups[1],
        ),
    ]
}

/// Limits of rows A to G.
fn of_limits(rows: &[Worked]) -> [String; 3] {
    let own = |side: usize| OWN.map(|limits| written(limits[side])).join(", ");
    let (lci, lvi, [lcc, lvc]) = (own(0), own(1), GROUP);
    for row in block(rows, 'A') {
        let side = usize::from(row.of.side) - 1;
        let limit = OWN[usize::from(row.of.item) - 1][side];
        assert_eq!(row.after[PCI + side], limit, "{}", row.name);
    }
    let c = block(rows, 'C');
    let [pcc, pvc] = [5, 6].map(|figure| c[0].before[figure] / 10_000);
    let accepted: Vec<&Worked> = c.into_iter().filter(|row| row.answer == 0).collect();
    assert_eq!(same(accepted.iter().map(|row| weight(row))), 0);
    [
        format!(
            "rows A: account 1, own lines of instruments 1, 2 and 3 with LCI {lci} and LVI {lvi}, group line LCC {lcc} \
             and LVC {lvc}. Each order reaches a limit, and is accepted."
        ),
        format!(
            "widened to {FAR}, so that the group's line alone is reached (PCC is {pcc} contracts, LCC {lcc}; PVC {pvc}, \
             LVC {lvc}). Weight 0 moves no group: {} are accepted.",
            names(&accepted, " and ")
        ),
        format!(
            "is set to 0 while the position on its side is above 0, and the other three are {FAR}."
        ),
    ]
}

/// Positions where no order is open, and until when a balance is taken.
fn of_balances(rows: &[Worked]) -> [String; 2] {
    let in_s = |figure: usize| {
        let of_row = |row: &Worked| in_terms_of_s(row.after[figure], row.after[0]);
        same(balances_of(rows).map(of_row))
    };
    balances_of(rows).for_each(|row| assert_eq!(row.after[6], -row.after[5], "{}", row.name));
    [
        format!("PCI = {}, PVI = {},", in_s(PCI), in_s(PVI)),
        format!("is refused once the account trades (question {TRADING})."),
    ]
}

/// What rows J begin with.
fn of_fills(rows: &[Worked]) -> String {
    let j = block(rows, 'J');
    let own = same(j.chunks(4).map(|rows| rows[0].before[..=PVI].to_vec()));
    let ids = (1..=3).map(|instrument| {
        let id = |side: u8| {
            let wanted = |row: &&&Worked| (row.of.side, row.of.item) == (side, instrument);
            j.iter().find(wanted).expect("an order").of.id
        };
        let are = if instrument == 1 {
            " are the buy and the sell"
        } else {
            ""
        };
        format!(
            "{} and {}{are} of instrument {instrument}",
            id(BUY),
            id(SELL)
        )
    });
    let ids = ids.collect::<Vec<_>>().join(", ");
    let [s, b, v, pci, pvi] = [0, 1, 2, 3, 4].map(|figure| written(own[figure]));
    let [pcc, pvc] = [5, 6].map(|figure| written(j[0].before[figure]));
    let [part, rest] = PARTS;
    format!(
        "account 8, with a buy and a sell of {OPEN} open in each instrument: S {s}, B {b}, V {v}, PCI {pci} and PVI {pvi} \
         each, PCC {pcc} and PVC {pvc}. Each order is filled by {part} and then by the {rest} that remain, which closes \
         it. Ids {ids}."
    )
}

/// An order of rows L that would get another answer if its balance S were another: what is said of it, and
/// whether it is sound.
fn misread(
    rows: &[Worked],
    row: &Worked,
    read_as: i64,
    limits: [i64; 4],
) -> Option<(String, bool)> {
    let side_of = usize::from(row.of.side) - 1;
    let slip = read_as - row.before[0];
    let slip = if row.of.side == BUY { slip } else { -slip };
    let would_be = row.before[PCI + side_of] + row.event.figures[0] + slip;
    let answer = if would_be > limits[side_of] {
        question(rows, side_of)
    } else {
        0
    };
    if answer == row.answer {
        return None;
    }
    let sound = row.answer == 0;
    let said = format!(
        "the {}{} {} would have {} {} and be {}",
        if sound { "sound " } else { "" },
        side(&row.of),
        row.name,
        NAMES[PCI + side_of],
        written(would_be),
        if sound {
            format!("turned away by {answer}")
        } else {
            "let through".to_string()
        },
    );
    Some((said, sound))
}

/// Section 5: what the slips of rows L would do, and which rows the last table names for it.
fn of_slips(rows: &[Worked]) -> Vec<String> {
    let l = block(rows, 'L');
    let opened = |account: u16| {
        let of_account =
            |row: &&&Worked| row.of.account == account && row.event.kind == kind::BALANCE;
        l.iter().find(of_account).expect("a balance").after[0]
    };
    let (short, long) = (opened(9), opened(10));
    let limits = |limits: [i64; 4]| {
        let [lci, lvi] = [0, 1].map(|limit| written(limits[limit]));
        format!("LCI {lci} and LVI {lvi}")
    };
    let [s, b] = [short, long].map(written);
    let mut sentences = vec![format!(
        "## 5. A balance of {s} read as {b}, and the opposite"
    )];
    sentences.push(format!(
        "Account 9 opens with {s}, {}; account 10 with {b}, {}.",
        limits(SHORT),
        limits(LONG)
    ));
    let (mut away, mut through) = (Vec::new(), Vec::new());
    for (account, was, read_as, limits) in [(9, short, long, SHORT), (10, long, short, LONG)] {
        let (was, read) = (written(was), written(read_as));
        let mut all = Vec::new();
        for row in &l {
            let is_order = row.event.kind == kind::NEW && row.of.account == account;
            let slip = is_order
                .then(|| misread(rows, row, read_as, limits))
                .flatten();
            let Some((said, sound)) = slip else { continue };
            let slips = if sound { &mut away } else { &mut through };
            slips.push(format!("{was} taken for {read}: {}", row.name));
            all.push(said);
        }
        sentences.push(format!(
            "If {was} were read as {read}, {}.",
            all.join(", and ")
        ));
    }
    sentences.push(format!(
        "| a sound order is turned away ({}) |",
        away.join("; ")
    ));
    sentences.push(format!(
        "| a position is let through ({}) |",
        through.join("; ")
    ));
    sentences
}

/// The page has the sentences whose figures the day gives.
pub fn assert_has_sentences(rows: &[Worked]) {
    let page = PAGE.split_whitespace().collect::<Vec<_>>().join(" ");
    let mut sentences = vec![of_roster(), of_fills(rows)];
    sentences.extend(of_orders(rows));
    sentences.extend(of_limits(rows));
    sentences.extend(of_balances(rows));
    sentences.extend(of_slips(rows));
    for sentence in sentences {
        assert!(
            page.contains(&sentence),
            "docs/SIGNS.md has no '{sentence}'"
        );
    }
}
