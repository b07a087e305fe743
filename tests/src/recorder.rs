//! The recorder's C interface, made safe for Rust. Nothing checks these declarations against crates/recorder: they
//! follow include/iolwarch.h, which the C program of tests/c reads.

/// One figure for each of submarkets 1 to 4.
#[repr(C)]
#[derive(Clone, Copy)]
pub struct BySubmarket {
    pub kwh: [u64; 4],
}

/// A transfer table, giver by receiver.
#[repr(C)]
#[derive(Clone, Copy, PartialEq, Eq, Debug)]
pub struct Table {
    pub rows: [[u64; 4]; 4],
}

/// A plant record.
#[repr(C)]
#[derive(Clone, Copy, PartialEq, Eq, Debug)]
pub struct Plant {
    pub submarket: u64,
    pub number: u64,
    pub guarantee: u64,
    pub loss: u64,
    pub availability: u64,
}

/// The month; stage 0 is blank, 1 open, 2 closed, any other read as blank.
#[repr(C)]
#[derive(Clone, Copy, PartialEq, Eq, Debug)]
pub struct Month {
    pub stage: u64,
    pub plants: u64,
    pub periods: u64,
    pub tariff: u64,
    pub due: u64,
}

impl Month {
    /// Before the first open.
    pub const BLANK: Month = Month { stage: 0, plants: 0, periods: 0, tariff: 0, due: 0 };
}

/// The answer of open and of close.
#[repr(C)]
#[derive(Clone, Copy, PartialEq, Eq, Debug)]
pub struct End {
    pub number: u64,
    pub month: Month,
}

/// The answer of settle.
#[repr(C)]
#[derive(Clone, Copy, PartialEq, Eq, Debug)]
pub struct Hour {
    pub number: u64,
    pub month: Month,
    pub secondary: u64,
    pub guarantees: u64,
    pub cover_table: Table,
    pub secondary_table: Table,
}

/// The answer of balance.
#[repr(C)]
#[derive(Clone, Copy, PartialEq, Eq, Debug)]
pub struct Sums {
    pub number: u64,
    pub month: Month,
    pub columns: [u64; 4],
    pub net: i64,
    pub money: i64,
}

/// The answer of the statement.
#[repr(C)]
#[derive(Clone, Copy, PartialEq, Eq, Debug)]
pub struct Stated {
    pub number: u64,
    pub month: Month,
    pub length: u64,
}

/// The answer of the sizing call.
#[repr(C)]
#[derive(Clone, Copy, PartialEq, Eq, Debug)]
pub struct Size {
    pub number: u64,
    pub month: Month,
    pub size: u64,
}

/// The answer of reading a line.
#[repr(C)]
#[derive(Clone, Copy, PartialEq, Eq, Debug)]
pub struct Line {
    pub number: u64,
    pub start: u64,
    pub fields: u64,
}

/// The answer of the field call: where the part starts in the line, and its length.
#[repr(C)]
#[derive(Clone, Copy, PartialEq, Eq, Debug)]
pub struct FieldPlace {
    pub number: u64,
    pub start: u64,
    pub length: u64,
}

/// How far a month file has come; stage 0 the first line is due, 1 P and H lines, 2 G lines, 3 refused.
#[repr(C)]
#[derive(Clone, Copy, PartialEq, Eq, Debug)]
pub struct File {
    pub stage: u64,
    pub length: u64,
    pub count: u64,
    pub plants: u64,
    pub periods: u64,
    pub tariff: u64,
    pub rows: u64,
    pub figures: u64,
    pub month: Month,
    pub number: u64,
}

/// The answer of a feed.
#[repr(C)]
#[derive(Clone, Copy, PartialEq, Eq, Debug)]
pub struct Fed {
    pub number: u64,
    pub file: File,
}

/// The answer of a finish.
#[repr(C)]
#[derive(Clone, Copy, PartialEq, Eq, Debug)]
pub struct Finished {
    pub number: u64,
    pub length: u64,
}

/// The answer of the transfer step.
#[repr(C)]
#[derive(Clone, Copy, PartialEq, Eq, Debug)]
pub struct Transferred {
    pub number: u64,
    pub table: Table,
}

/// A call of the C interface, said once: a list goes to C as a pointer and its length, all else by value. A slice is a
/// valid pointer and length, and what is written is borrowed alone, so no lists overlap.
macro_rules! call {
    ($(#[$doc:meta])* $name:ident = $symbol:ident($($given:tt)*) -> $answer:ty) => {
        call!(@ [$(#[$doc])* $name $symbol $answer] [] [] [] $($given)*);
    };
    (@ $call:tt [$($rust:tt)*] [$($c:tt)*] [$($sent:tt)*] $list:ident: &mut [$of:ty], $($rest:tt)*) => {
        call!(@ $call [$($rust)* $list: &mut [$of],] [$($c)* $list: *mut $of, _: usize,]
            [$($sent)* $list.as_mut_ptr(), $list.len(),] $($rest)*);
    };
    (@ $call:tt [$($rust:tt)*] [$($c:tt)*] [$($sent:tt)*] $list:ident: &[$of:ty], $($rest:tt)*) => {
        call!(@ $call [$($rust)* $list: &[$of],] [$($c)* $list: *const $of, _: usize,]
            [$($sent)* $list.as_ptr(), $list.len(),] $($rest)*);
    };
    (@ $call:tt [$($rust:tt)*] [$($c:tt)*] [$($sent:tt)*] $value:ident: $of:ty, $($rest:tt)*) => {
        call!(@ $call [$($rust)* $value: $of,] [$($c)* $value: $of,] [$($sent)* $value,] $($rest)*);
    };
    (@ [$(#[$doc:meta])* $name:ident $symbol:ident $answer:ty] [$($rust:tt)*] [$($c:tt)*] [$($sent:tt)*]) => {
        $(#[$doc])*
        pub fn $name($($rust)*) -> $answer {
            extern "C" {
                fn $symbol($($c)*) -> $answer;
            }
            unsafe { $symbol($($sent)*) }
        }
    };
}

call! {
    /// Shares `total` over `weights` into `parts`; the answer is the number.
    share = iolwarch_share(total: u64, weights: &[u64], parts: &mut [u64],) -> u64
}

call! {
    /// The transfer step: what four submarkets have left meets what they need.
    transfer_by = iolwarch_transfer(left: BySubmarket, need: BySubmarket,) -> Transferred
}

pub fn transfer(left: [u64; 4], need: [u64; 4]) -> Transferred {
    transfer_by(BySubmarket { kwh: left }, BySubmarket { kwh: need })
}

call! {
    /// Opens a month.
    open = iolwarch_open(
        month: Month, plants: &[Plant], profile: &[u64], tariff: u64, allotted: &mut [u64], accounts: &mut [i64],
    ) -> End
}

call! {
    /// Settles the period due.
    settle = iolwarch_settle(
        month: Month, plants: &[Plant], profile: &[u64], metered: &[u64],
        allotment: &mut [u64], allotted: &mut [u64], accounts: &mut [i64],
    ) -> Hour
}

call! {
    /// Sums the ledger's columns.
    balance = iolwarch_balance(month: Month, allotted: &[u64], accounts: &[i64],) -> Sums
}

call! {
    /// Ends the month.
    close = iolwarch_close(month: Month,) -> End
}

call! {
    /// Writes the statement to the front of `bytes`.
    statement = iolwarch_statement(
        month: Month, plants: &[Plant], allotted: &[u64], accounts: &[i64], bytes: &mut [u8],
    ) -> Stated
}

call! {
    /// A number of bytes that the statement does not pass.
    size = iolwarch_statement_size(month: Month, plants: &[Plant], allotted: &[u64], accounts: &[i64],) -> Size
}

call! {
    /// Reads a line, its end byte 10 removed.
    read_line = iolwarch_read_line(line: &[u8], figures: &mut [u64],) -> Line
}

call! {
    /// A field of a line, counted from 0.
    field = iolwarch_field(line: &[u8], index: u64,) -> FieldPlace
}

call! {
    /// A month file before its first byte.
    begin = iolwarch_file_begin() -> File
}

call! {
    /// Feeds the next part of a month file.
    feed = iolwarch_file_feed(
        file: File, part: &[u8], line: &mut [u8], columns: &mut [u64], profile: &mut [u64], allotted: &mut [u64],
        accounts: &mut [i64],
    ) -> Fed
}

call! {
    /// Ends a month file: its statement or its refusal goes to the front of `text`.
    finish = iolwarch_file_finish(
        file: File, line: &[u8], columns: &[u64], profile: &[u64], allotted: &[u64], accounts: &[i64],
        text: &mut [u8],
    ) -> Finished
}
