//! The versions of the protocol by the names that libpq has for them.

use crate::Versions;
use std::error::Error;
use std::fmt::{self, Display, Formatter};
use std::{env, str::FromStr};

/// Why names of versions stand for none.
#[derive(Debug, Clone, PartialEq, Eq)]
#[non_exhaustive]
pub enum VersionsError {
    /// It is none of `3.0`, `3.2` and `latest`.
    Unknown(String),
    /// The least is later than the greatest.
    Reversed,
}

impl Display for VersionsError {
    fn fmt(&self, f: &mut Formatter<'_>) -> fmt::Result {
        match self {
            VersionsError::Unknown(name) => write!(f, "a version of the protocol is 3.0, 3.2 or latest, not {name:?}"),
            VersionsError::Reversed => f.write_str("the least version of the protocol is later than the greatest"),
        }
    }
}

impl Error for VersionsError {}

#[derive(Clone, Copy, PartialEq, Eq, PartialOrd, Ord)]
enum Version {
    V3_0,
    V3_2,
}

impl FromStr for Version {
    type Err = VersionsError;

    fn from_str(name: &str) -> Result<Version, VersionsError> {
        match name {
            "3.0" => Ok(Version::V3_0),
            "3.2" | "latest" => Ok(Version::V3_2),
            _ => Err(VersionsError::Unknown(name.to_owned())),
        }
    }
}

impl Versions {
    /// The versions that libpq's `min_protocol_version` and `max_protocol_version` name: `3.0`, `3.2` or `latest`. Without a least one it is 3.0, and
    /// without a greatest one the least.
    ///
    /// # Errors
    ///
    /// `Unknown` of another name; `Reversed` where the least is later than the greatest.
    pub fn named(least: Option<&str>, greatest: Option<&str>) -> Result<Versions, VersionsError> {
        let least = least.unwrap_or("3.0").parse()?;
        let greatest = greatest.map_or(Ok(least), str::parse)?;
        match (least, greatest) {
            (Version::V3_0, Version::V3_0) => Ok(Versions::Only3_0),
            (Version::V3_0, Version::V3_2) => Ok(Versions::UpTo3_2),
            (Version::V3_2, Version::V3_2) => Ok(Versions::Only3_2),
            (Version::V3_2, Version::V3_0) => Err(VersionsError::Reversed),
        }
    }

    /// The versions that `PGMINPROTOCOLVERSION` and `PGMAXPROTOCOLVERSION` name, as `named` has them; an empty variable is none.
    ///
    /// # Errors
    ///
    /// Those of `named`.
    pub fn from_env() -> Result<Versions, VersionsError> {
        let value = |name| env::var(name).ok().filter(|value| !value.is_empty());
        Versions::named(value("PGMINPROTOCOLVERSION").as_deref(), value("PGMAXPROTOCOLVERSION").as_deref())
    }
}
