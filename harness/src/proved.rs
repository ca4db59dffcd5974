//! The proved library, as it is called from outside.

/// The formats of numbers, by their number in a sheet's header: that of decimal with four to seven digits is how many it has.
#[derive(Clone, Copy, PartialEq, Eq, Debug)]
pub enum Format {
    Binary64 = 1,
    Decimal8 = 2,
    Decimal4 = 4,
    Decimal5 = 5,
    Decimal6 = 6,
    Decimal7 = 7,
}

pub const FORMATS: [Format; 6] =
    [Format::Binary64, Format::Decimal8, Format::Decimal4, Format::Decimal5, Format::Decimal6, Format::Decimal7];

impl Format {
    pub fn number(self) -> u8 {
        self as u8
    }

    /// None where the number names no format.
    pub fn of_number(number: u8) -> Option<Format> {
        FORMATS.into_iter().find(|format| format.number() == number)
    }
}

/// What an expression gives where a name in it is the plain arithmetic of a format: `in_format!(format, R => plain_card::<R>(zeros))`.
macro_rules! in_format {
    ($format:expr, $R:ident => $work:expr) => {
        match $format {
            $crate::proved::Format::Binary64 => {
                type $R = $crate::radix::Binary64;
                $work
            }
            $crate::proved::Format::Decimal8 => {
                type $R = $crate::radix::Decimal<8>;
                $work
            }
            $crate::proved::Format::Decimal4 => {
                type $R = $crate::radix::Decimal<4>;
                $work
            }
            $crate::proved::Format::Decimal5 => {
                type $R = $crate::radix::Decimal<5>;
                $work
            }
            $crate::proved::Format::Decimal6 => {
                type $R = $crate::radix::Decimal<6>;
                $work
            }
            $crate::proved::Format::Decimal7 => {
                type $R = $crate::radix::Decimal<7>;
                $work
            }
        }
    };
}
pub(crate) use in_format;

#[derive(Clone, Copy, PartialEq, Eq, Debug)]
pub enum Operation {
    SumSplit = 1,
    ProductSplit = 2,
    Lift = 3,
    Admission = 4,
    Comparison = 5,
}

/// What an operation answers: outcome 0 with its patterns, 1 to 3 an operand that is no number with its cause, 4 refused, 5 a number that
/// names no format or no operation, or a lift by more than 192.
#[repr(C)]
#[derive(Clone, Copy, PartialEq, Eq, Debug)]
pub struct Answer {
    pub outcome: u8,
    pub main: u64,
    pub error: u64,
}

unsafe extern "C" {
    fn coef_report(sheet: *const u8, sheet_length: usize, out: *mut u8, out_length: usize) -> usize;
    fn coef_operate(format: u8, operation: u8, a: u64, b: u64) -> Answer;
    fn coef_card(format: u8, zeros: *const u64, n: usize, answers: *mut [u64; 2], room: usize);
}

/// The report of a sheet; the buffer is kept by the caller, so that none is made for each sheet.
pub fn report<'b>(sheet: &[u8], buffer: &'b mut Vec<u8>) -> &'b [u8] {
    loop {
        let length = report_into(sheet, buffer);
        if length <= buffer.len() {
            return &buffer[..length];
        }
        buffer.resize(length, 0);
    }
}

/// Reports a sheet into a buffer as it is, and answers the length of the whole report.
pub fn report_into(sheet: &[u8], buffer: &mut [u8]) -> usize {
    unsafe { coef_report(sheet.as_ptr(), sheet.len(), buffer.as_mut_ptr(), buffer.len()) }
}

pub fn operate(format: Format, operation: Operation, a: u64, b: u64) -> Answer {
    operate_by_number(format.number(), operation, a, b)
}

/// The same by a number, which need not name a format.
pub fn operate_by_number(format: u8, operation: Operation, a: u64, b: u64) -> Answer {
    unsafe { coef_operate(format, operation as u8, a, b) }
}

/// Works a card; the answers are values and bounds of the orders from 0 up, as many as there is room for. One that is refused stays.
pub fn card(format: Format, zeros: &[u64], answers: &mut [[u64; 2]]) {
    card_by_number(format.number(), zeros, answers);
}

/// The same by a number, which need not name a format.
pub fn card_by_number(format: u8, zeros: &[u64], answers: &mut [[u64; 2]]) {
    unsafe { coef_card(format, zeros.as_ptr(), zeros.len(), answers.as_mut_ptr(), answers.len()) }
}

/// Works a card so many times.
pub fn cards(format: Format, zeros: &[u64], times: usize, answers: &mut [[u64; 2]]) {
    for _ in 0..times {
        card(format, zeros, answers);
    }
}
