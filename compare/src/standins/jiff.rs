//! jiff: a timestamp with the range of the real one, since that range is what refuses a FILETIME.

/// jiff's `Timestamp::MIN` and `Timestamp::MAX` in whole seconds since 1970; the last second is
/// taken with all its nanoseconds, the first only from its start.
const MIN_SECOND: i64 = -377_705_023_201;
const MAX_SECOND: i64 = 253_402_207_200;
const NANOS_PER_SECOND: i128 = 1_000_000_000;

/// Seconds since 1970 and the nanoseconds beside them, as jiff has it.
#[derive(Debug, Clone, Copy, PartialEq, Eq, PartialOrd, Ord, Hash)]
pub struct Timestamp {
    second: i64,
    nanosecond: i32,
}

#[derive(Debug, Clone, Copy, PartialEq, Eq)]
pub struct RangeError;

impl Timestamp {
    pub fn new(second: i64, nanosecond: i32) -> Result<Self, RangeError> {
        let in_range = (MIN_SECOND..=MAX_SECOND).contains(&second)
            && (-999_999_999..=999_999_999).contains(&nanosecond)
            && !(second == MIN_SECOND && nanosecond < 0);
        if !in_range {
            return Err(RangeError);
        }
        Ok(Timestamp { second, nanosecond })
    }

    pub fn as_nanosecond(self) -> i128 {
        i128::from(self.second) * NANOS_PER_SECOND + i128::from(self.nanosecond)
    }
}

pub mod civil {
    /// Only for the display of a SYSTEMTIME, which nothing here calls.
    pub struct DateTime;

    impl DateTime {
        pub fn new(
            _: i16,
            _: i8,
            _: i8,
            _: i8,
            _: i8,
            _: i8,
            _: i32,
        ) -> Result<Self, super::RangeError> {
            Err(super::RangeError)
        }
    }
}

pub mod tz {
    /// Only for the display of a SYSTEMTIME, which nothing here calls.
    pub struct Offset;

    impl Offset {
        pub const UTC: Offset = Offset;

        pub fn to_timestamp(
            &self,
            _: super::civil::DateTime,
        ) -> Result<super::Timestamp, super::RangeError> {
            Err(super::RangeError)
        }
    }
}
