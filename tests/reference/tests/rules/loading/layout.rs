//! 25: each rule of declaration, elements and tags, broken once.

use super::{answered, desk, edited, refuse, FILE};

/// Each file is refused.
#[track_caller]
fn refused<T: AsRef<[u8]>>(files: impl IntoIterator<Item = T>) {
    let mut trial = desk();
    for file in files {
        refuse(&mut trial, 25, file);
    }
}

/// The lines of `FILE` without those that begin or end an element of this name.
fn without(name: &str) -> String {
    let (start, end) = (format!("<{name}"), format!("</{name}"));
    let other = |line: &&str| !line.trim().starts_with(&start) && !line.trim().starts_with(&end);
    FILE.lines().filter(other).collect()
}

/// The lines of an element of `FILE` and of all that stands in it.
fn lines_of(name: &str) -> String {
    let (start, end) = (format!("<{name}"), format!("</{name}"));
    let before = FILE.find(&start).unwrap();
    let after = FILE.find(&end).unwrap();
    format!("{}{end}>", &FILE[before..after])
}

const NAMES: [&str; 5] = ["FIXML", "SetLimRqt", "AcctLmt", "EqvIxmLmt", "ContrtLmt"];

#[test]
fn file_as_it_stands_is_the_layout() {
    answered(0, FILE);
}

#[test]
fn declaration_is_the_manuals_byte_for_byte() {
    let declaration = FILE.lines().next().unwrap();
    let others = [
        r#"<?xml version="1.0"?>"#,
        r#"<?xml encoding="iso-8859-1"?>"#,
        r#"<?xml encoding="iso-8859-1" version="1.0"?>"#,
        r#"<?xml version="1.1" encoding="iso-8859-1"?>"#,
        r#"<?xml version="1.0" encoding="ISO-8859-1"?>"#,
        r#"<?xml version="1.0" encoding="utf-8"?>"#,
        r#"<?xml version="1.0" encoding="iso-8859-1" ?>"#,
        r#"<?xml version="1.0" encoding="iso-8859-1" standalone="yes"?>"#,
        r#"<?xml version="1.0"  encoding="iso-8859-1"?>"#,
        r#"<?xml version='1.0' encoding='iso-8859-1'?>"#,
        r#"<?XML version="1.0" encoding="iso-8859-1"?>"#,
        r#"<?xml version="1.0" encoding="iso-8859-1">"#,
        r#"<xml version="1.0" encoding="iso-8859-1"/>"#,
        "<?xml?>",
    ];
    refused(others.map(|other| edited(FILE, declaration, other)));
}

#[test]
fn declaration_stands_first_and_once() {
    let declaration = FILE.lines().next().unwrap();
    refused([" ", "\n", "\t", "\r", "\u{feff}", "\0", "x"].map(|before| format!("{before}{FILE}")));
    refused([
        edited(FILE, declaration, &format!("{declaration}{declaration}")),
        edited(FILE, "<FIXML>", &format!("<FIXML>{declaration}")),
        format!("{FILE}{declaration}"),
        declaration.to_string(),
    ]);
}

#[test]
fn names_of_elements() {
    for (name, others) in [
        ("FIXML", ["FTXML", "fixml", "FIXM", "FIXMLs"]),
        (
            "SetLimRqt",
            ["SetLimReq", "setLimRqt", "SetLimRq", "SetLimRqt1"],
        ),
        ("AcctLmt", ["AcctLim", "ACCTLMT", "AcctLm", "AcctLmts"]),
        (
            "EqvIxmLmt",
            ["EqvlxmLmt", "eqvixmlmt", "EqvIxm", "EqvIxmLmtCfg"],
        ),
        (
            "ContrtLmt",
            ["ContrLmt", "contrtLmt", "Contrt", "ContrtLmt-"],
        ),
        ("IxmLmt", ["IXmLmt", "ixmLmt", "Ixm", "fix:IxmLmt"]),
    ] {
        let (start, end) = (format!("<{name}"), format!("</{name}"));
        refused(others.map(|other| {
            let file = FILE.replace(&start, &format!("<{other}"));
            file.replace(&end, &format!("</{other}"))
        }));
    }
}

#[test]
fn each_element_but_an_instrument_ends_with_its_own_tag() {
    for name in NAMES {
        let end = format!("</{name}>");
        let others = ["", "</IxmLmt>", "</>", "</x>", "<x/>"];
        refused(others.map(|other| edited(FILE, &end, other)));
        refused([
            edited(FILE, &end, &format!("{end}{end}")),
            edited(FILE, &end, &format!("<{name}/>")),
            edited(FILE, &end, &format!("</{name}")),
            edited(FILE, &end, &format!("</{name}/>")),
            edited(FILE, &end, &format!("</{name} x=\"1\">")),
        ]);
    }
    let crossed = FILE.replace("</EqvIxmLmt>", "</x>");
    let crossed = crossed.replace("</ContrtLmt>", "</EqvIxmLmt>");
    refused([crossed.replace("</x>", "</ContrtLmt>")]);
}

#[test]
fn an_instrument_ends_once() {
    refused(
        [
            "",
            ">",
            "/",
            "/></IxmLmt>",
            "></ContrtLmt>",
            ">x</IxmLmt>",
            "></IxmLmt></IxmLmt>",
        ]
        .map(|end| edited(FILE, r#""34"/>"#, &format!(r#""34"{end}"#))),
    );
}

#[test]
fn one_fixml_holds_one_request() {
    let request = lines_of("SetLimRqt");
    refused([
        String::new(),
        " \n".to_string(),
        without("FIXML"),
        without("SetLimRqt"),
        "<FIXML/>".to_string(),
        "<FIXML></FIXML>".to_string(),
        "<FIXML> </FIXML>".to_string(),
        format!("<FIXML>{request}{request}</FIXML>"),
        format!("<FIXML>{request}</FIXML><FIXML>{request}</FIXML>"),
        format!("<FIXML>{request}</FIXML><FIXML></FIXML>"),
        format!("<FIXML>{request}</FIXML>{request}"),
        format!("{request}<FIXML>{request}</FIXML>"),
        format!("<FIXML><FIXML>{request}</FIXML></FIXML>"),
        format!(r#"<FIXML v="4.4">{request}</FIXML>"#),
        format!("<FIXML >{request}</FIXML>"),
    ]);
}

#[test]
fn no_level_is_left_out_or_comes_twice() {
    for name in NAMES {
        refused([without(name)]);
        let twice = format!("{}{}</{name}>", start_of(name), lines_of(name));
        refused([edited(FILE, &lines_of(name), &twice)]);
    }
}

/// The start tag of an element of `FILE`.
fn start_of(name: &str) -> &'static str {
    let before = FILE.find(&format!("<{name}")).unwrap();
    let after = FILE[before..].find('>').unwrap();
    &FILE[before..=before + after]
}

/// An element of each level, with no children.
const CHILDLESS: [&str; 5] = [
    r#"<SetLimRqt BrkFrmId="" NAccts="0"/>"#,
    r#"<AcctLmt Acct="2" AcctType="" NEqvIxmLmtCfg="0"/>"#,
    r#"<EqvIxmLmt EqvIxm="2" NContrtLmtCfg="0"/>"#,
    r#"<ContrtLmt Contrt="2" NIxmLmtCfg="0"/>"#,
    r#"<IxmLmt Asset="" SecTyp="" Sym="2"/>"#,
];

#[test]
fn no_element_stands_where_another_belongs() {
    for (parent, own_child) in NAMES.into_iter().zip(CHILDLESS) {
        let (start, end) = (start_of(parent), format!("</{parent}>"));
        for element in CHILDLESS.into_iter().filter(|&child| child != own_child) {
            refused([
                edited(FILE, start, &format!("{start}{element}")),
                edited(FILE, &end, &format!("{element}{end}")),
            ]);
        }
    }
    refused(CHILDLESS.map(|element| {
        let inside = format!(r#"MaxOfrQty="34">{element}</IxmLmt>"#);
        edited(FILE, r#"MaxOfrQty="34"/>"#, &inside)
    }));
}

#[test]
fn nothing_but_blanks_stands_between_tags() {
    let others = [
        "x", "0", ".", "&#32;", "&amp;", "\"", "\0", "\x0b", "\x0c", "\x7f", "\u{a0}",
    ];
    let markup = [
        "<!-- -->",
        "<![CDATA[]]>",
        "<?x?>",
        "<!DOCTYPE FIXML>",
        "<",
        ">",
        "<>",
        "< >",
    ];
    for other in others.into_iter().chain(markup) {
        for (place, _) in FILE.match_indices('>') {
            let (before, after) = FILE.split_at(place + 1);
            answered(25, format!("{before}{other}{after}"));
            answered(25, format!("{before} {other}\n{after}"));
        }
    }
    for byte in [0x80, 0x85, 0xa0, 0xff] {
        answered(25, [FILE.as_bytes(), &[byte]].concat());
    }
}

#[test]
fn no_blank_stands_in_a_tag_but_before_attributes() {
    for blank in [" ", "\t", "\r", "\n"] {
        for name in NAMES {
            let end = format!("</{name}>");
            refused([
                edited(FILE, &format!("<{name}"), &format!("<{blank}{name}")),
                edited(FILE, &end, &format!("<{blank}/{name}>")),
                edited(FILE, &end, &format!("</{blank}{name}>")),
                edited(FILE, &end, &format!("</{name}{blank}>")),
            ]);
            let start = start_of(name);
            let inside = start.strip_suffix('>').unwrap();
            refused([edited(FILE, start, &format!("{inside}{blank}>"))]);
        }
        refused([
            edited(FILE, "<IxmLmt", &format!("<{blank}IxmLmt")),
            edited(FILE, "/>", &format!("{blank}/>")),
            edited(FILE, "/>", &format!("/{blank}>")),
            edited(FILE, "/>", &format!("{blank}></IxmLmt>")),
            edited(FILE, "/>", &format!("></IxmLmt{blank}>")),
        ]);
    }
}

#[test]
fn a_file_cut_short() {
    let end = FILE.rfind('>').unwrap();
    refused((0..=end).map(|length| &FILE[..length]));
    answered(0, &FILE[..=end]);
}
