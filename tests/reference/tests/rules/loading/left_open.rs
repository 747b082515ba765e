//! What the layout leaves open: the file is accepted and sets the same lines.

use super::{accept, answered, desk, desk_with_lines, edited, FILE};

/// The file sets what `FILE` sets.
#[track_caller]
fn same(file: impl AsRef<[u8]>) {
    let mut trial = desk();
    accept(&mut trial, file);
    assert!(trial.lent == desk_with_lines().lent);
}

/// The declaration of `FILE`, and what comes after it.
fn halves() -> (&'static str, &'static str) {
    FILE.split_at(FILE.find("?>").unwrap() + 2)
}

/// `FILE` with one blank, a space, before each attribute and none elsewhere.
fn without_blanks() -> String {
    let (declaration, rest) = halves();
    let lines: Vec<&str> = rest.lines().map(str::trim).collect();
    declaration.to_string() + &lines.concat().replace("\"MaxOfrQty", "\" MaxOfrQty")
}

#[test]
fn file_as_it_stands() {
    same(FILE);
}

#[test]
fn declaration_may_be_missing() {
    let (declaration, rest) = halves();
    same(rest);
    same(rest.trim());
    for blank in [" ", "\t", "\r", "\n", "\r\n \t"] {
        same(format!("{blank}{}", rest.trim()));
        same(format!("{declaration}{blank}{}", rest.trim()));
    }
}

#[test]
fn blanks_around_tags_may_be_missing() {
    same(without_blanks());
}

#[test]
fn blanks_of_each_sort_around_each_tag() {
    let file = without_blanks();
    let (declaration, rest) = file.split_at(file.find("?>").unwrap() + 2);
    for blank in [
        " ",
        "\t",
        "\r",
        "\n",
        "\r\n",
        " \t\r\n\n\r\t ",
        &" ".repeat(1_000),
    ] {
        let around = rest.replace('<', &format!("{blank}<"));
        let around = around.replace('>', &format!(">{blank}"));
        same(format!("{declaration}{around}"));
        for (place, _) in file.match_indices('>') {
            let (before, after) = file.split_at(place + 1);
            same(format!("{before}{blank}{after}"));
        }
    }
}

#[test]
fn blanks_of_each_sort_before_each_attribute() {
    let file = without_blanks();
    let (declaration, rest) = file.split_at(file.find("?>").unwrap() + 2);
    for blank in [
        "\t",
        "\r",
        "\n",
        "\r\n",
        "  ",
        " \t\r\n\n\r\t ",
        &"\t".repeat(1_000),
    ] {
        same(format!("{declaration}{}", rest.replace(' ', blank)));
        for (place, _) in rest.match_indices(' ') {
            let (before, after) = (&rest[..place], &rest[place + 1..]);
            same(format!("{before}{blank}{after}"));
        }
    }
}

#[test]
fn an_instrument_may_close_with_an_end_tag() {
    for inside in ["", " ", "\t", "\r", "\n", " \r\n\t"] {
        same(edited(FILE, "/>", &format!(">{inside}</IxmLmt>")));
    }
}

#[test]
fn childless_elements_close_either_way() {
    let elements = [
        (
            r#"AcctLmt Acct="2" AcctType="" NEqvIxmLmtCfg="0""#,
            "AcctLmt",
            "SetLimRqt",
            "NAccts",
        ),
        (
            r#"EqvIxmLmt EqvIxm="2" NContrtLmtCfg="0""#,
            "EqvIxmLmt",
            "AcctLmt",
            "NEqvIxmLmtCfg",
        ),
        (
            r#"ContrtLmt Contrt="2" NIxmLmtCfg="0""#,
            "ContrtLmt",
            "EqvIxmLmt",
            "NContrtLmtCfg",
        ),
        (
            r#"IxmLmt Asset="" SecTyp="" Sym="2""#,
            "IxmLmt",
            "ContrtLmt",
            "NIxmLmtCfg",
        ),
    ];
    for (start, name, parent, count) in elements {
        let file = edited(FILE, &format!(r#"{count}="1""#), &format!(r#"{count}="2""#));
        let end = format!("</{parent}>");
        for tags in [
            format!("<{start}/>"),
            format!("<{start}></{name}>"),
            format!("<{start}>\r\n\t </{name}>"),
        ] {
            same(edited(&file, &end, &format!("{tags}{end}")));
        }
    }
}

#[test]
fn a_request_of_no_accounts() {
    for request in [
        r#"<SetLimRqt BrkFrmId="" NAccts="0"/>"#,
        r#"<SetLimRqt BrkFrmId="" NAccts="0"></SetLimRqt>"#,
        "<SetLimRqt\tBrkFrmId=\"\"\rNAccts=\"00\">\n</SetLimRqt>",
    ] {
        let mut trial = desk_with_lines();
        accept(&mut trial, format!("<FIXML>{request}</FIXML>"));
        assert!(trial.lent == desk_with_lines().lent);
    }
}

#[test]
fn numbers_of_10_digits() {
    for (place, _) in FILE.match_indices("=\"").skip(2) {
        let (before, after) = FILE.split_at(place + 2);
        let digits = after.find('"').unwrap();
        if after[..digits].bytes().all(|byte| byte.is_ascii_digit()) {
            same(format!("{before}{}{after}", "0".repeat(10 - digits)));
        }
    }
}

/// `FILE` with each text, and with all, written so.
fn with_texts(text: &[u8]) -> Vec<Vec<u8>> {
    let texts = ["111111", "CM", "AST", "FUT"];
    let mut all = FILE.as_bytes().to_vec();
    let mut files = Vec::new();
    for old in texts {
        let quoted = format!("\"{old}\"");
        files.push(put(FILE.as_bytes(), &quoted, text));
        all = put(&all, &quoted, text);
    }
    files.push(all);
    files
}

/// The file with a quoted value, which stands there once, exchanged.
fn put(file: &[u8], quoted: &str, text: &[u8]) -> Vec<u8> {
    let mut windows = file.windows(quoted.len());
    let place = windows
        .position(|window| window == quoted.as_bytes())
        .unwrap();
    let (before, after) = (&file[..place], &file[place + quoted.len()..]);
    [before, b"\"", text, b"\"", after].concat()
}

#[test]
fn texts_of_0_to_100_bytes() {
    for length in [0, 1, 2, 50, 99, 100] {
        for byte in [b'x', b' ', 0, 255] {
            with_texts(&vec![byte; length]).iter().for_each(same);
        }
    }
    for file in with_texts(&[b'x'; 101]) {
        answered(25, file);
    }
}

#[test]
fn texts_hold_every_byte_but_four() {
    for byte in 0..=255 {
        for text in [vec![byte], vec![b'x', byte], vec![byte, b'x']] {
            for file in with_texts(&text) {
                match byte {
                    b'"' | b'&' | b'<' | b'>' => answered(25, file),
                    _ => same(file),
                }
            }
        }
    }
}

#[test]
fn texts_that_look_like_something_else() {
    for text in [
        "/",
        "//",
        "=",
        "Acct=",
        "' Acct='1'",
        "\r\n",
        "?",
        "x/",
        "/x",
        "--",
        "]]",
        "-1",
    ] {
        with_texts(text.as_bytes()).iter().for_each(same);
    }
}
