//! Loads with faults, to see that a comparison can fail.
//!
//! Each is the reference's with what it reads, takes, asks or keeps distorted.

mod asked;
mod kept;
mod read;
mod taken;

use reference::fixml::{self, Request};
use reference::{loading, Desk, Event, Lent, MEMORY};

/// A sort of faulty load.
#[derive(Clone, Copy)]
pub struct Faulty {
    pub name: &'static str,
    how: How,
}

type Reads = fn(&[u8]) -> Vec<u8>;
type Takes = fn(&Desk, &mut Request);
type Asks = fn(&Desk, &Request) -> Result<Vec<Event>, u8>;
type Keeps = fn(&mut Desk, &Desk, &Request);

/// What is wrong with a load.
#[derive(Clone, Copy)]
enum How {
    /// It loads the file as this changes it.
    Reads(Reads),
    /// It loads the elements as this changes them.
    Takes(Takes),
    /// It judges the elements by this.
    Asks(Asks),
    /// It answers rightly, and this changes what it keeps, given the desk before.
    Keeps(Keeps),
}

/// Every sort of faulty load.
pub fn faulty() -> Vec<Faulty> {
    [
        read::faulty(),
        taken::faulty(),
        asked::faulty(),
        kept::faulty(),
    ]
    .concat()
}

impl Faulty {
    /// Loads a file on a memory that holds a sound desk.
    pub fn load(&self, lent: &mut Lent, file: &[u8]) -> u8 {
        let changed = match self.how {
            How::Reads(change) => change(file),
            _ => file.to_vec(),
        };
        let (Some(before), Some(mut request)) = (lent.desk().cloned(), fixml::read(&changed))
        else {
            return lent.load_limits(&changed);
        };
        if let How::Takes(change) = self.how {
            change(&before, &mut request);
        }
        let judged = match self.how {
            How::Asks(judge) => judge(&before, &request),
            _ => loading::judge_elements(&before, &request),
        };
        let mut desk = before.clone();
        let events = judged.iter().flatten();
        events.for_each(|event| desk.book.work(event));
        if let How::Keeps(change) = self.how {
            change(&mut desk, &before, &request);
        }
        *lent = Lent::holding(MEMORY, desk);
        judged.err().unwrap_or(0)
    }
}
