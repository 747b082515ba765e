//! Bytes read wrongly.

use wire::fixml::DECLARATION;

use super::{Faulty, How, Reads};

pub fn faulty() -> Vec<Faulty> {
    let reads: [(&str, Reads); 15] = [
        ("takes blanks before the end of a tag", blanks_before_end),
        ("takes blanks around the equals sign", blanks_around_equals),
        ("takes form feeds for blanks", form_feeds),
        ("takes tabs for no blanks", tabs),
        ("takes carriage returns for no blanks", carriage_returns),
        ("takes single quotes", single_quotes),
        ("takes any declaration", any_declaration),
        (
            "takes blanks before the declaration",
            blanks_before_declaration,
        ),
        ("takes no file without a declaration", declaration_needed),
        ("reads no further than FIXML's end", no_further),
        ("passes comments over", comments),
        ("takes no leading zeros", leading_zeros),
        ("takes a sign before a number", signs),
        ("takes the manual's other spellings", other_spellings),
        ("takes no element closed with />", closed_at_once),
    ];
    let fault = |(name, how)| Faulty {
        name,
        how: How::Reads(how),
    };
    reads.map(fault).to_vec()
}

/// Every `from` in the file exchanged for `to`.
fn exchanged(file: &[u8], from: &str, to: &str) -> Vec<u8> {
    let (from, to) = (from.as_bytes(), to.as_bytes());
    let mut changed = Vec::new();
    let mut rest = file;
    while let Some(&first) = rest.first() {
        match rest.strip_prefix(from) {
            Some(after) => {
                changed.extend(to);
                rest = after;
            }
            None => {
                changed.push(first);
                rest = &rest[1..];
            }
        }
    }
    changed
}

fn blanks_before_end(file: &[u8]) -> Vec<u8> {
    let mut changed = file.to_vec();
    for blank in [" ", "\t", "\r", "\n"] {
        changed = exchanged(&changed, &format!("\"{blank}>"), "\">");
        changed = exchanged(&changed, &format!("\"{blank}/>"), "\"/>");
    }
    changed
}

fn blanks_around_equals(file: &[u8]) -> Vec<u8> {
    exchanged(&exchanged(file, " =", "="), "= \"", "=\"")
}

fn form_feeds(file: &[u8]) -> Vec<u8> {
    exchanged(file, "\x0c", " ")
}

fn tabs(file: &[u8]) -> Vec<u8> {
    exchanged(file, "\t", "x")
}

fn carriage_returns(file: &[u8]) -> Vec<u8> {
    exchanged(file, "\r", "x")
}

fn single_quotes(file: &[u8]) -> Vec<u8> {
    exchanged(file, "'", "\"")
}

fn comments(file: &[u8]) -> Vec<u8> {
    exchanged(file, "<!-- -->", "")
}

fn closed_at_once(file: &[u8]) -> Vec<u8> {
    exchanged(file, "/>", "x>")
}

fn any_declaration(file: &[u8]) -> Vec<u8> {
    let end = file.windows(2).position(|pair| pair == b"?>");
    match end {
        Some(end) if file.starts_with(b"<?") => file[end + 2..].to_vec(),
        _ => file.to_vec(),
    }
}

fn blanks_before_declaration(file: &[u8]) -> Vec<u8> {
    let trimmed = file.trim_ascii_start();
    match trimmed.starts_with(DECLARATION) {
        true => trimmed.to_vec(),
        false => file.to_vec(),
    }
}

fn declaration_needed(file: &[u8]) -> Vec<u8> {
    match file.starts_with(DECLARATION) {
        true => file.to_vec(),
        false => Vec::new(),
    }
}

fn no_further(file: &[u8]) -> Vec<u8> {
    let end = b"</FIXML>";
    let place = file.windows(end.len()).position(|bytes| bytes == end);
    file[..place.map_or(file.len(), |place| place + end.len())].to_vec()
}

fn leading_zeros(file: &[u8]) -> Vec<u8> {
    exchanged(file, "=\"00", "=\"x")
}

fn signs(file: &[u8]) -> Vec<u8> {
    exchanged(&exchanged(file, "=\"+", "=\""), "=\"-", "=\"")
}

fn other_spellings(file: &[u8]) -> Vec<u8> {
    let changed = exchanged(file, "NIXmLmtCfg", "NIxmLmtCfg");
    exchanged(
        &exchanged(&changed, "SetLimReq", "SetLimRqt"),
        "ContrLmt",
        "ContrtLmt",
    )
}
