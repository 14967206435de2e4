// Stands in for the published src/core/timezone_impl.rs, which the source folder lacks.
use super::timezone::Tz;
use chrono::{
    FixedOffset, Local, LocalResult, NaiveDate, NaiveDateTime, Offset, TimeZone,
};
use std::fmt::{Debug, Display, Formatter};

#[derive(Clone, Copy, PartialEq, Eq)]
pub enum RRuleOffset {
    Local(FixedOffset),
    Tz(<chrono_tz::Tz as TimeZone>::Offset),
}

impl Debug for RRuleOffset {
    fn fmt(&self, f: &mut Formatter<'_>) -> std::fmt::Result {
        match self {
            Self::Local(o) => Debug::fmt(o, f),
            Self::Tz(o) => Debug::fmt(o, f),
        }
    }
}

impl Display for RRuleOffset {
    fn fmt(&self, f: &mut Formatter<'_>) -> std::fmt::Result {
        match self {
            Self::Local(o) => Display::fmt(o, f),
            Self::Tz(o) => Display::fmt(o, f),
        }
    }
}

impl Offset for RRuleOffset {
    fn fix(&self) -> FixedOffset {
        match self {
            Self::Local(o) => *o,
            Self::Tz(o) => o.fix(),
        }
    }
}

impl TimeZone for Tz {
    type Offset = RRuleOffset;

    fn from_offset(offset: &Self::Offset) -> Self {
        match offset {
            RRuleOffset::Local(_) => Self::LOCAL,
            RRuleOffset::Tz(o) => Self::Tz(chrono_tz::Tz::from_offset(o)),
        }
    }

    #[allow(deprecated)]
    fn offset_from_local_date(&self, local: &NaiveDate) -> LocalResult<Self::Offset> {
        match self {
            Self::Local(_) => Local.offset_from_local_date(local).map(RRuleOffset::Local),
            Self::Tz(tz) => tz.offset_from_local_date(local).map(RRuleOffset::Tz),
        }
    }

    fn offset_from_local_datetime(&self, local: &NaiveDateTime) -> LocalResult<Self::Offset> {
        match self {
            Self::Local(_) => Local.offset_from_local_datetime(local).map(RRuleOffset::Local),
            Self::Tz(tz) => tz.offset_from_local_datetime(local).map(RRuleOffset::Tz),
        }
    }

    #[allow(deprecated)]
    fn offset_from_utc_date(&self, utc: &NaiveDate) -> Self::Offset {
        match self {
            Self::Local(_) => RRuleOffset::Local(Local.offset_from_utc_date(utc)),
            Self::Tz(tz) => RRuleOffset::Tz(tz.offset_from_utc_date(utc)),
        }
    }

    fn offset_from_utc_datetime(&self, utc: &NaiveDateTime) -> Self::Offset {
        match self {
            Self::Local(_) => RRuleOffset::Local(Local.offset_from_utc_datetime(utc)),
            Self::Tz(tz) => RRuleOffset::Tz(tz.offset_from_utc_datetime(utc)),
        }
    }
}

impl Debug for Tz {
    fn fmt(&self, f: &mut Formatter<'_>) -> std::fmt::Result {
        write!(f, "{}", self.name())
    }
}

impl Display for Tz {
    fn fmt(&self, f: &mut Formatter<'_>) -> std::fmt::Result {
        write!(f, "{}", self.name())
    }
}

impl PartialEq for Tz {
    fn eq(&self, other: &Self) -> bool {
        match (self, other) {
            (Self::Local(_), Self::Local(_)) => true,
            (Self::Tz(a), Self::Tz(b)) => a == b,
            _ => false,
        }
    }
}

impl Eq for Tz {}

impl From<chrono_tz::Tz> for Tz {
    fn from(tz: chrono_tz::Tz) -> Self {
        Self::Tz(tz)
    }
}

impl From<Local> for Tz {
    fn from(_: Local) -> Self {
        Self::LOCAL
    }
}
