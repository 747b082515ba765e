//! 25: each rule of attributes, numbers and texts, broken once.

use super::{answered, edited, FILE};

/// The attributes of `FILE` that hold a number.
const NUMBERS: [&str; 18] = [
    r#"NAccts="1""#,
    r#"Acct="1""#,
    r#"NEqvIxmLmtCfg="1""#,
    r#"EqvIxm="1""#,
    r#"LongLmt="11""#,
    r#"ShortLmt="12""#,
    r#"NContrtLmtCfg="1""#,
    r#"Contrt="1""#,
    r#"LongLmt="21""#,
    r#"ShortLmt="22""#,
    r#"MaxBidQty="23""#,
    r#"MaxOfrQty="24""#,
    r#"NIxmLmtCfg="1""#,
    r#"Sym="1""#,
    r#"LongLmt="31""#,
    r#"ShortLmt="32""#,
    r#"MaxBidQty="33""#,
    r#"MaxOfrQty="34""#,
];

/// The attributes of `FILE` that hold a text.
const TEXTS: [&str; 4] = [
    r#"BrkFrmId="111111""#,
    r#"AcctType="CM""#,
    r#"Asset="AST""#,
    r#"SecTyp="FUT""#,
];

/// The name and the value of an attribute of `FILE`.
fn parts(attribute: &str) -> (&str, &str) {
    let (name, value) = attribute.split_once("=\"").unwrap();
    (name, value.strip_suffix('"').unwrap())
}

/// An attribute of `FILE` with the blank before it.
fn with_blank(attribute: &str) -> &'static str {
    let place = FILE.find(attribute).unwrap();
    &FILE[place - 1..place + attribute.len()]
}

/// Every attribute of `FILE`.
fn all() -> impl Iterator<Item = &'static str> {
    NUMBERS.into_iter().chain(TEXTS)
}

/// The file with an attribute written otherwise is refused.
#[track_caller]
fn refused(attribute: &str, others: &[String]) {
    for other in others {
        answered(25, edited(FILE, attribute, other));
    }
}

#[test]
fn none_is_missing_alone() {
    for attribute in all() {
        refused(with_blank(attribute), &[String::new()]);
    }
}

/// The attributes whose places have a 1 in `chosen`.
fn some(attributes: &[&str], chosen: usize) -> String {
    let all = attributes.iter().enumerate();
    let some = all.filter(|(place, _)| chosen >> place & 1 == 1);
    some.map(|(_, attribute)| *attribute)
        .collect::<Vec<_>>()
        .join(" ")
}

#[test]
fn limits_are_all_present_or_all_missing() {
    let contract = [
        r#"LongLmt="21""#,
        r#"ShortLmt="22""#,
        r#"MaxBidQty="23""#,
        r#"MaxOfrQty="24""#,
    ];
    let instrument = [
        r#"LongLmt="31""#,
        r#"ShortLmt="32""#,
        r#"MaxBidQty="33""#,
        r#"MaxOfrQty="34""#,
    ];
    let file = edited(FILE, "\nMaxOfrQty", " MaxOfrQty");
    for chosen in 1..15 {
        for limits in [contract, instrument] {
            let file = edited(&file, &limits.join(" "), &some(&limits, chosen));
            answered(25, file);
        }
    }
}

#[test]
fn a_group_has_two_limits_and_an_account_none() {
    let size = r#"MaxBidQty="1" MaxOfrQty="1""#;
    refused(
        r#"ShortLmt="12""#,
        &[
            format!(r#"ShortLmt="12" {size}"#),
            r#"ShortLmt="12" MaxBidQty="1""#.to_string(),
        ],
    );
    let both = r#"LongLmt="1" ShortLmt="1""#;
    refused(r#"AcctType="CM""#, &[format!(r#"AcctType="CM" {both}"#)]);
    refused(r#"LongLmt="11" ShortLmt="12""#, &[size.to_string()]);
}

#[test]
fn none_comes_twice_and_none_is_unknown() {
    for attribute in all() {
        refused(
            attribute,
            &[
                format!("{attribute} {attribute}"),
                format!("{attribute} Other=\"1\""),
                format!("xmlns=\"\" {attribute}"),
            ],
        );
    }
}

#[test]
fn each_two_neighbours_keep_their_order() {
    let file = edited(FILE, "\nMaxOfrQty", " MaxOfrQty");
    let mut exchanged = 0;
    for line in file.lines().skip(1) {
        let words = line.split([' ', '>', '/']);
        let attributes: Vec<&str> = words.filter(|word| word.contains('=')).collect();
        for pair in attributes.windows(2) {
            let (here, there) = (pair.join(" "), [pair[1], pair[0]].join(" "));
            answered(25, edited(&file, &here, &there));
            exchanged += 1;
        }
    }
    assert_eq!(exchanged, 17);
}

#[test]
fn names_of_attributes() {
    for attribute in all() {
        let (name, value) = parts(attribute);
        let others = [
            name.to_lowercase(),
            name.to_uppercase(),
            format!("{name}s"),
            name[..name.len() - 1].to_string(),
            format!("x:{name}"),
            String::new(),
        ];
        let others = others.map(|other| format!("{other}=\"{value}\""));
        let same = |other: &String| other == attribute;
        assert!(!others.iter().any(same));
        refused(attribute, &others);
    }
    refused("NIxmLmtCfg", &["NIXmLmtCfg".to_string()]);
}

#[test]
fn values_stand_in_quotes_behind_an_equals_sign() {
    for attribute in all() {
        let (name, value) = parts(attribute);
        let others = [
            format!("{name}='{value}'"),
            format!("{name}={value}"),
            format!("{name}=\"{value}"),
            format!("{name}={value}\""),
            format!("{name}\"{value}\""),
            format!("{name}==\"{value}\""),
            format!("{name}:\"{value}\""),
            format!("{name}=\"{value}\"\""),
            format!("{name}=&quot;{value}&quot;"),
            name.to_string(),
            format!("{name}="),
        ];
        refused(attribute, &others);
    }
}

#[test]
fn a_blank_before_each_and_none_around_the_equals_sign() {
    for attribute in all() {
        refused(with_blank(attribute), &[attribute.to_string()]);
        let (name, value) = parts(attribute);
        for blank in [" ", "\t", "\r", "\n"] {
            let others = [
                format!("{name}{blank}=\"{value}\""),
                format!("{name}={blank}\"{value}\""),
                format!("{}{blank}{}=\"{value}\"", &name[..1], &name[1..]),
            ];
            refused(attribute, &others);
        }
    }
}

#[test]
fn no_other_byte_is_a_blank() {
    for attribute in all() {
        for other in [
            "\0", "\x0b", "\x0c", "\x1f", "\x7f", "\u{85}", "\u{a0}", "/", ",", ";",
        ] {
            refused(
                with_blank(attribute),
                &[
                    format!("{other}{attribute}"),
                    format!(" {other}{attribute}"),
                ],
            );
        }
    }
}

#[test]
fn numbers_are_1_to_10_digits() {
    for attribute in NUMBERS {
        let (name, value) = parts(attribute);
        let others = [
            String::new(),
            format!("{value:0>11}"),
            format!("{value:0>12}"),
            format!("{value:0>101}"),
            format!(" {value}"),
            format!("{value} "),
            format!("{value}\n"),
            format!("{value} {value}"),
            format!("+{value}"),
            format!("-{value}"),
            "-1".to_string(),
            format!("{value}.0"),
            format!("{value},0"),
            format!("0x{value}"),
            format!("{value}e0"),
            format!("{value}/"),
            format!("{value}:"),
            format!("{value}\0"),
            format!("&#4{value};"),
            "\u{661}".to_string(),
            "x".to_string(),
        ];
        refused(
            attribute,
            &others.map(|other| format!("{name}=\"{other}\"")),
        );
    }
}

#[test]
fn texts_are_up_to_100_bytes_without_quote_ampersand_or_angle_bracket() {
    for attribute in TEXTS {
        let (name, value) = parts(attribute);
        let others = [
            "x".repeat(101),
            "x".repeat(102),
            "x".repeat(1_000),
            " ".repeat(101),
            // 100 characters, 101 bytes
            format!("{}\u{e9}", "x".repeat(99)),
            format!("{value}\"{value}"),
            "\"".to_string(),
            format!("{value}&{value}"),
            "&amp;".to_string(),
            format!("{value}<{value}"),
            format!("{value}>{value}"),
            "<IxmLmt/>".to_string(),
            "/>".to_string(),
        ];
        refused(
            attribute,
            &others.map(|other| format!("{name}=\"{other}\"")),
        );
    }
}
