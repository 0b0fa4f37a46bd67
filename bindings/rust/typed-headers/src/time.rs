#[cfg(feature = "std")]
use std::time::{Duration, SystemTime};

#[cfg(feature = "std")]
use crate::Error;

/// A time: so many seconds since the start of 1970. Calls take it as such a number, or as a `SystemTime`.
///
/// ```
/// use std::time::{Duration, SystemTime};
/// use typed_headers::{Timestamp, format_date};
///
/// let time = SystemTime::UNIX_EPOCH + Duration::from_millis(784_111_777_500);
/// assert_eq!(format_date(time)?, "Sun, 06 Nov 1994 08:49:37 GMT");
/// assert_eq!(format_date(784_111_777)?, format_date(time)?);
/// assert_eq!(SystemTime::try_from(Timestamp::from(5))?, SystemTime::UNIX_EPOCH + Duration::from_secs(5));
/// # Ok::<(), typed_headers::Error>(())
/// ```
#[derive(Clone, Copy, Debug, Default, PartialEq, Eq, PartialOrd, Ord, Hash)]
pub struct Timestamp(u64);

impl Timestamp {
    /// The seconds since the start of 1970.
    pub const fn seconds(self) -> u64 {
        self.0
    }
}

impl From<u64> for Timestamp {
    fn from(seconds: u64) -> Timestamp {
        Timestamp(seconds)
    }
}

/// The second in which the time is. One before 1970 is the start of 1970.
#[cfg(feature = "std")]
impl From<SystemTime> for Timestamp {
    fn from(time: SystemTime) -> Timestamp {
        Timestamp(time.duration_since(SystemTime::UNIX_EPOCH).map_or(0, |it| it.as_secs()))
    }
}

/// [`Error::TooLarge`] if the system has no such time.
#[cfg(feature = "std")]
impl TryFrom<Timestamp> for SystemTime {
    type Error = Error;

    fn try_from(time: Timestamp) -> Result<SystemTime, Error> {
        SystemTime::UNIX_EPOCH.checked_add(Duration::from_secs(time.0)).ok_or(Error::TooLarge)
    }
}
