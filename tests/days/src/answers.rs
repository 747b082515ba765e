//! Which answers each class of event can get.

use crate::class::Class::{self, *};
use crate::class::Quantity::{Beyond, NotPositive, Part, Whole};
use crate::class::Sign::{Negative, Positive, Zero};
use crate::plain::Side::{Buy, Sell};

/// The answers that document 01 makes possible for each class of event on a sound desk.
pub const TABLE: [(Class, &[u8]); 38] = [
    // Not 48 bytes, no listed kind, level or side.
    (Other, &[6]),
    (Limit(1), &[0, 6, 7, 8, 9]),
    (Limit(2), &[0, 6, 7, 8, 9]),
    (Limit(3), &[0, 6, 7, 8, 9]),
    (Balance, &[0, 6, 7, 8, 9, 10]),
    // An account's block names no item; an instrument's names no account.
    (Block(1), &[0, 6, 7, 9]),
    (Block(2), &[0, 6, 8, 9]),
    (Block(3), &[0, 6, 7, 8, 9]),
    // A buy is asked 19 and 21, a sell 20 and 22. A buy moves its group long if K > 0 (23), short
    // if K < 0 (24); a sell does the opposite; K = 0 moves no group.
    (
        New(Buy, Positive),
        &[0, 6, 7, 9, 13, 14, 15, 16, 17, 18, 19, 21, 23],
    ),
    (
        New(Buy, Negative),
        &[0, 6, 7, 9, 13, 14, 15, 16, 17, 18, 19, 21, 24],
    ),
    (
        New(Buy, Zero),
        &[0, 6, 7, 9, 13, 14, 15, 16, 17, 18, 19, 21],
    ),
    (
        New(Sell, Positive),
        &[0, 6, 7, 9, 13, 14, 15, 16, 17, 18, 20, 22, 24],
    ),
    (
        New(Sell, Negative),
        &[0, 6, 7, 9, 13, 14, 15, 16, 17, 18, 20, 22, 23],
    ),
    (
        New(Sell, Zero),
        &[0, 6, 7, 9, 13, 14, 15, 16, 17, 18, 20, 22],
    ),
    (NewOffRoster(Buy), &[6, 7, 8]),
    (NewOffRoster(Sell), &[6, 7, 8]),
    // A REPLACE names no account and no item (7, 8); its id is open (11), a total that rises is
    // above what is filled (12), and it needs no new id or place (13, 18).
    (Raise(Buy, Positive), &[0, 6, 9, 14, 15, 16, 17, 19, 21, 23]),
    (Raise(Buy, Negative), &[0, 6, 9, 14, 15, 16, 17, 19, 21, 24]),
    (Raise(Buy, Zero), &[0, 6, 9, 14, 15, 16, 17, 19, 21]),
    (
        Raise(Sell, Positive),
        &[0, 6, 9, 14, 15, 16, 17, 20, 22, 24],
    ),
    (
        Raise(Sell, Negative),
        &[0, 6, 9, 14, 15, 16, 17, 20, 22, 23],
    ),
    (Raise(Sell, Zero), &[0, 6, 9, 14, 15, 16, 17, 20, 22]),
    // An open order's total is in range and above what is filled.
    (Same, &[0, 6]),
    (Lower, &[0, 6]),
    (LowerToFilled, &[6, 12]),
    (ReplaceNotPositive, &[6, 9]),
    (ReplaceNotOpen, &[6, 9, 11]),
    (Cancel, &[0, 6]),
    (CancelNotOpen, &[6, 11]),
    (Fill(Buy, NotPositive), &[6, 9]),
    (Fill(Buy, Part), &[0, 6]),
    (Fill(Buy, Whole), &[0, 6]),
    (Fill(Buy, Beyond), &[6, 9, 12]),
    (Fill(Sell, NotPositive), &[6, 9]),
    (Fill(Sell, Part), &[0, 6]),
    (Fill(Sell, Whole), &[0, 6]),
    (Fill(Sell, Beyond), &[6, 9, 12]),
    (FillNotOpen, &[6, 9, 11]),
];
