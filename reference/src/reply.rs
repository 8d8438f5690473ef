//! Numbered replies, named as in the table of document 01.

/// The number of a reply.
pub type Number = u8;

/// Done.
pub const DONE: Number = 0;
/// Bytes end inside or before a number.
pub const BYTES_END: Number = 1;
/// Third byte still has its top bit, value over 65,535, or a longer form than needed.
pub const BAD_NUMBER: Number = 2;
/// Form number is not 1.
pub const NOT_FORM_1: Number = 3;
/// A value breaks the limits.
pub const OVER_LIMITS: Number = 4;
/// Token over m+1, module repeated, or cut with fewer than two things standing.
pub const BAD_TOKEN: Number = 5;
/// Tokens used up and not exactly one thing stands.
pub const NOT_ONE_STANDING: Number = 6;
/// Bytes after the last token.
pub const BYTES_AFTER: Number = 7;
/// A lent buffer is too short.
pub const TOO_SHORT: Number = 8;
/// Lists not to be relied on.
pub const NOT_RELIED_ON: Number = 9;
/// No placement.
pub const NO_PLACEMENT: Number = 10;
/// Edit names no module or no cut, or the new need breaks the limits.
pub const BAD_EDIT: Number = 11;
/// Checker: module off the chip, or w or h zero.
pub const OFF_THE_CHIP: Number = 12;
/// Checker: module short of its need.
pub const SHORT_OF_NEED: Number = 13;
/// Checker: cut not kept.
pub const CUT_NOT_KEPT: Number = 14;
/// Score: a ninth term, or a weight outside 0 to 1,000,000 or not a number.
pub const BAD_TERM: Number = 15;
/// Score: a 33rd net, or one that is empty or names a missing module.
pub const BAD_NET: Number = 16;
