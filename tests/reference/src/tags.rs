//! The tags of a limits file, with nothing but blanks around them.

/// A name and a value.
pub type Attribute<'a> = (&'a [u8], &'a [u8]);

/// What stands in a tag that begins an element.
#[derive(Clone, PartialEq, Eq, Debug)]
pub struct Start<'a> {
    pub name: &'a [u8],
    pub attributes: Vec<Attribute<'a>>,
    /// The tag ends with `/>`: the element has no children and no end tag.
    pub closed: bool,
}

#[derive(Clone, PartialEq, Eq, Debug)]
pub enum Tag<'a> {
    Start(Start<'a>),
    /// The name between `</` and `>`.
    End(&'a [u8]),
}

/// The tags of `bytes`, if blanks and tags are all that there is.
pub fn read(bytes: &[u8]) -> Option<Vec<Tag<'_>>> {
    let mut tags = Vec::new();
    let mut rest = without_blanks(bytes);
    while !rest.is_empty() {
        let (inside, after) = cut(rest.strip_prefix(b"<")?, b'>')?;
        tags.push(tag(inside)?);
        rest = without_blanks(after);
    }
    Some(tags)
}

/// The tag with this between `<` and `>`. A value has no `>`, so no tag ends inside one.
fn tag(inside: &[u8]) -> Option<Tag<'_>> {
    if let Some(name) = inside.strip_prefix(b"/") {
        return Some(Tag::End(name));
    }
    match inside.strip_suffix(b"/") {
        Some(inside) => start(inside, true),
        None => start(inside, false),
    }
}

/// The name up to the first blank, then attributes and nothing else.
fn start(inside: &[u8], closed: bool) -> Option<Tag<'_>> {
    let blank = inside.iter().position(|&byte| is_blank(byte));
    let (name, mut rest) = inside.split_at(blank.unwrap_or(inside.len()));
    let mut attributes = Vec::new();
    while !rest.is_empty() {
        let (attribute, after) = first_attribute(rest)?;
        attributes.push(attribute);
        rest = after;
    }
    Some(Tag::Start(Start {
        name,
        attributes,
        closed,
    }))
}

/// At least one blank, a name, an equals sign and a value in quotes; and what comes after.
fn first_attribute(bytes: &[u8]) -> Option<(Attribute<'_>, &[u8])> {
    let attribute = without_blanks(bytes);
    if attribute.len() == bytes.len() {
        return None;
    }
    let (name, quoted) = cut(attribute, b'=')?;
    let (value, after) = cut(quoted.strip_prefix(b"\"")?, b'"')?;
    Some(((name, value), after))
}

/// What stands before the first `mark`, and what after it.
fn cut(bytes: &[u8], mark: u8) -> Option<(&[u8], &[u8])> {
    let place = bytes.iter().position(|&byte| byte == mark)?;
    Some((&bytes[..place], &bytes[place + 1..]))
}

/// The bytes from the first that is no blank.
fn without_blanks(bytes: &[u8]) -> &[u8] {
    let first = bytes.iter().position(|&byte| !is_blank(byte));
    &bytes[first.unwrap_or(bytes.len())..]
}

/// Spaces, tabs and line ends.
fn is_blank(byte: u8) -> bool {
    matches!(byte, b' ' | b'\t' | b'\r' | b'\n')
}
