//! From an event's bytes to what it says: question 6.

use crate::event::{Blocked, Event, Item, NewOrder};
use crate::order::Side;

/// The length of an event in bytes.
pub const EVENT_LENGTH: usize = 48;

/// The fields of an event, in the order of its bytes.
struct Fields {
    kind: u8,
    side: u8,
    account: u16,
    item: u16,
    level: u8,
    zero: u8,
    id: u64,
    figures: [i64; 4],
}

/// The fields, besides the kind and the figures, that an event may name.
#[derive(Clone, Copy, PartialEq, Eq)]
enum Field {
    Side,
    Account,
    Item,
    Level,
    Id,
}

/// The fields that an event names, and how many of its figures from the first; `None` where the
/// kind, or a level that the kind names, is not one of the listed values.
fn named(kind: u8, level: u8) -> Option<(&'static [Field], usize)> {
    use Field::{Account, Id, Item, Level, Side};
    Some(match (kind, level) {
        (1, 1 | 2) => (&[Account, Item, Level], 4),
        (1, 3) => (&[Account, Item, Level], 2),
        (2, _) => (&[Account, Item], 1),
        (3, 1) => (&[Account, Level], 1),
        (3, 2) => (&[Item, Level], 1),
        (3, 3) => (&[Account, Item, Level], 1),
        (4, _) => (&[Side, Account, Item, Id], 1),
        (5, _) => (&[Id], 1),
        (6, _) => (&[Id], 0),
        (7, _) => (&[Id], 1),
        _ => return None,
    })
}

impl Fields {
    fn read(bytes: &[u8; EVENT_LENGTH]) -> Fields {
        let two = |at: usize| [bytes[at], bytes[at + 1]];
        let eight = |at: usize| <[u8; 8]>::try_from(&bytes[at..at + 8]).expect("eight bytes");
        Fields {
            kind: bytes[0],
            side: bytes[1],
            account: u16::from_le_bytes(two(2)),
            item: u16::from_le_bytes(two(4)),
            level: bytes[6],
            zero: bytes[7],
            id: u64::from_le_bytes(eight(8)),
            figures: [16, 24, 32, 40].map(|at| i64::from_le_bytes(eight(at))),
        }
    }

    /// Every field that is not among the named ones is zero.
    fn are_zero_unless(&self, named: &[Field], figures: usize) -> bool {
        let zero_unless = |field, zero| named.contains(&field) || zero;
        zero_unless(Field::Side, self.side == 0)
            && zero_unless(Field::Account, self.account == 0)
            && zero_unless(Field::Item, self.item == 0)
            && zero_unless(Field::Level, self.level == 0)
            && self.zero == 0
            && zero_unless(Field::Id, self.id == 0)
            && self.figures[figures..].iter().all(|&figure| figure == 0)
    }

    /// What the fields say; the figures of a LIMIT are the first `figures`.
    fn event(&self, figures: usize) -> Option<Event> {
        let (id, account, item) = (self.id, self.account, self.item);
        let figure = self.figures[0];
        Some(match self.kind {
            1 => Event::Limit {
                account,
                item: self.limited()?,
                figures: self.figures[..figures].to_vec(),
            },
            2 => Event::Balance {
                account,
                instrument: item,
                balance: figure,
            },
            3 => Event::Block {
                blocked: self.blocked()?,
                figure,
            },
            4 => Event::New(NewOrder {
                side: self.side()?,
                account,
                instrument: item,
                id,
                quantity: figure,
            }),
            5 => Event::Replace { id, total: figure },
            6 => Event::Cancel { id },
            7 => {
                let quantity = figure;
                Event::Fill { id, quantity }
            }
            _ => return None,
        })
    }

    /// The item of a LIMIT, by its level.
    fn limited(&self) -> Option<Item> {
        match self.level {
            1 => Some(Item::Instrument(self.item)),
            2 => Some(Item::Contract(self.item)),
            3 => Some(Item::Group(self.item)),
            _ => None,
        }
    }

    /// What a BLOCK blocks, by its level.
    fn blocked(&self) -> Option<Blocked> {
        let (account, instrument, group) = (self.account, self.item, self.item);
        match self.level {
            1 => Some(Blocked::Account { account }),
            2 => Some(Blocked::Instrument { instrument }),
            3 => Some(Blocked::Group { account, group }),
            _ => None,
        }
    }

    fn side(&self) -> Option<Side> {
        match self.side {
            1 => Some(Side::Buy),
            2 => Some(Side::Sell),
            _ => None,
        }
    }
}

impl Event {
    /// Question 6: the event, if it is 48 bytes, the kind 1 to 7, a named side and level one of the
    /// listed values, a named id non-zero, every unnamed field zero.
    pub fn read(bytes: &[u8]) -> Option<Event> {
        let fields = Fields::read(bytes.try_into().ok()?);
        let (named, figures) = named(fields.kind, fields.level)?;
        let id_is_missing = named.contains(&Field::Id) && fields.id == 0;
        if id_is_missing || !fields.are_zero_unless(named, figures) {
            return None;
        }
        fields.event(figures)
    }
}
