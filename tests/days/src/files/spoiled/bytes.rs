//! Bytes that don't follow the layout, in files without texts: 25.

use wire::fixml::DECLARATION;

use super::{answered, How, Spoiling};
use crate::random::Random;

pub fn spoilings() -> Vec<Spoiling> {
    answered(
        25,
        &[
            ("a blank where none may stand", How::Bytes(blank_put_in)),
            ("no blank before an attribute", How::Bytes(blanks_taken_out)),
            ("another byte for a blank", How::Bytes(blank_exchanged)),
            ("another byte for a quote", How::Bytes(quote_exchanged)),
            ("something between tags", How::Bytes(put_between_tags)),
            ("an end tag is missing", How::Bytes(end_tag_missing)),
            ("an end tag has another name", How::Bytes(end_tag_renamed)),
            ("a file cut short", How::Bytes(cut_short)),
            ("something after the end", How::Bytes(put_after_the_end)),
            ("another declaration", How::Bytes(another_declaration)),
            (
                "a declaration that is not the first",
                How::Bytes(declaration_later),
            ),
        ],
    )
}

fn is_blank(byte: u8) -> bool {
    b" \t\r\n".contains(&byte)
}

/// The places of a file, each between the byte before and the byte there, that are wanted.
fn places(file: &[u8], wanted: impl Fn(u8, u8) -> bool) -> Vec<usize> {
    let pairs = (1..).zip(file.windows(2));
    let wanted = pairs.filter(|(_, pair)| wanted(pair[0], pair[1]));
    wanted.map(|(place, _)| place).collect()
}

fn one_of(random: &mut Random, places: &[usize]) -> Option<usize> {
    match places {
        [] => None,
        _ => Some(random.one_of(places)),
    }
}

/// Not around a tag, beside another blank or in an empty text.
fn blank_put_in(random: &mut Random, mut file: Vec<u8>) -> Option<Vec<u8>> {
    let places = places(&file, |before, after| {
        let around_tag = before == b'>' || after == b'<';
        let in_text = before == b'"' && after == b'"';
        !around_tag && !in_text && !is_blank(before) && !is_blank(after)
    });
    let place = one_of(random, &places)?;
    file.insert(place, random.one_of(b" \t\r\n"));
    Some(file)
}

fn blanks_taken_out(random: &mut Random, mut file: Vec<u8>) -> Option<Vec<u8>> {
    let starts = places(&file, |before, after| {
        before != b'>' && !is_blank(before) && is_blank(after)
    });
    let start = one_of(random, &starts)?;
    let blanks = file[start..]
        .iter()
        .take_while(|&&byte| is_blank(byte))
        .count();
    let before_attribute = file.get(start + blanks).is_some_and(|&byte| byte != b'<');
    file.drain(start..start + blanks);
    before_attribute.then_some(file)
}

fn blank_exchanged(random: &mut Random, mut file: Vec<u8>) -> Option<Vec<u8>> {
    let places = places(&file, |_, byte| is_blank(byte));
    let place = one_of(random, &places)?;
    file[place] = random.one_of(b"\0\x0b\x0c\x1f\x7f\x85\xa0x");
    Some(file)
}

fn quote_exchanged(random: &mut Random, mut file: Vec<u8>) -> Option<Vec<u8>> {
    let places = places(&file, |_, byte| byte == b'"');
    let place = one_of(random, &places)?;
    file[place] = random.one_of(b"'` =\0");
    Some(file)
}

fn put_between_tags(random: &mut Random, mut file: Vec<u8>) -> Option<Vec<u8>> {
    let places = places(&file, |before, after| before == b'>' || after == b'<');
    let place = one_of(random, &places)?;
    let others: [&[u8]; 10] = [
        b"x",
        b"0",
        b"<",
        b">",
        b"\0",
        b"\x0c",
        b"\xa0",
        b"&#32;",
        b"<!-- -->",
        b"<?x?>",
    ];
    file.splice(place..place, random.one_of(&others).iter().copied());
    Some(file)
}

/// The places of the end tags' first bytes.
fn end_tags(file: &[u8]) -> Vec<usize> {
    let slashes = places(file, |before, after| before == b'<' && after == b'/');
    slashes.into_iter().map(|slash| slash - 1).collect()
}

fn end_tag_missing(random: &mut Random, mut file: Vec<u8>) -> Option<Vec<u8>> {
    let start = one_of(random, &end_tags(&file))?;
    let length = file[start..].iter().position(|&byte| byte == b'>')?;
    file.drain(start..=start + length);
    Some(file)
}

fn end_tag_renamed(random: &mut Random, mut file: Vec<u8>) -> Option<Vec<u8>> {
    let start = one_of(random, &end_tags(&file))?;
    let length = file[start..].iter().position(|&byte| byte == b'>')?;
    let names: [&[u8]; 6] = [b"", b"x", b"IxmLmt ", b"fixml", b"SetLimReq", b"AcctLmts"];
    let name = random.one_of(&names).iter().copied();
    file.splice(start + 2..start + length, name);
    Some(file)
}

fn cut_short(random: &mut Random, mut file: Vec<u8>) -> Option<Vec<u8>> {
    let last = file.iter().rposition(|&byte| byte == b'>')?;
    file.truncate(random.below(last + 1));
    Some(file)
}

fn put_after_the_end(random: &mut Random, mut file: Vec<u8>) -> Option<Vec<u8>> {
    let others: [&[u8]; 7] = [b"x", b"\0", b"\x1a", b"</FIXML>", b"<FIXML/>", b"<", b">"];
    file.extend(random.one_of(&others));
    Some(file)
}

/// The file without its declaration.
fn undeclared(file: Vec<u8>) -> Vec<u8> {
    let rest = file.strip_prefix(DECLARATION).map(<[u8]>::to_vec);
    rest.unwrap_or(file)
}

fn another_declaration(random: &mut Random, file: Vec<u8>) -> Option<Vec<u8>> {
    let others: [&[u8]; 7] = [
        br#"<?xml version="1.0"?>"#,
        br#"<?xml version="1.0" encoding="utf-8"?>"#,
        br#"<?xml version="1.0" encoding="ISO-8859-1"?>"#,
        br#"<?xml version="1.0" encoding="iso-8859-1" ?>"#,
        br#"<?xml version='1.0' encoding='iso-8859-1'?>"#,
        br#"<?xml version="1.1" encoding="iso-8859-1"?>"#,
        b"\xef\xbb\xbf",
    ];
    let other = random.one_of(&others);
    Some([other, &undeclared(file)].concat())
}

/// Behind a blank, behind itself, or at the end.
fn declaration_later(random: &mut Random, file: Vec<u8>) -> Option<Vec<u8>> {
    let file = undeclared(file);
    Some(match random.below(3) {
        0 => [&[random.one_of(b" \t\r\n")], DECLARATION, &file].concat(),
        1 => [DECLARATION, DECLARATION, &file].concat(),
        _ => [&file, DECLARATION].concat(),
    })
}
