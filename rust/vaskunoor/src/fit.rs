//! Why a typed file could not be built. Assumes nothing.
use crate::Refusal;
use std::error::Error;
use std::fmt::{self, Display, Formatter};

/// A number outside what its field can have.
#[derive(Clone, Copy, Debug, PartialEq, Eq, Hash)]
pub struct Unfit {
    field: &'static str,
    value: usize,
    least: usize,
    most: usize,
}

impl Unfit {
    /// The value itself where it lies from `least` to `most`.
    pub(crate) fn check(field: &'static str, value: usize, least: usize, most: usize) -> Result<usize, Unfit> {
        if (least..=most).contains(&value) {
            return Ok(value);
        }
        Err(Unfit { field, value, least, most })
    }

    /// The value as one byte, where it lies from `least` to `most` and `most` is at most 255.
    pub(crate) fn byte(field: &'static str, value: usize, least: usize, most: usize) -> Result<u8, Unfit> {
        let value = Unfit::check(field, value, least, most)?;
        u8::try_from(value).map_err(|_| Unfit { field, value, least, most })
    }

    /// The field's name, as docs/FORMAT.md has it.
    pub fn field(&self) -> &'static str {
        self.field
    }

    /// The number that was given.
    pub fn value(&self) -> usize {
        self.value
    }

    /// The least and the most that the field can have.
    pub fn allowed(&self) -> (usize, usize) {
        (self.least, self.most)
    }
}

impl Display for Unfit {
    fn fmt(&self, to: &mut Formatter) -> fmt::Result {
        write!(to, "{} {} is not one of {} to {}", self.field, self.value, self.least, self.most)
    }
}

impl Error for Unfit {}

/// Why a request, an assignment or a table could not be built.
#[derive(Clone, Copy, Debug, PartialEq, Eq, Hash)]
pub enum Invalid {
    /// A number that its field cannot have.
    Unfit(Unfit),
    /// The file that it would be is refused.
    Refused(Refusal),
}

impl Display for Invalid {
    fn fmt(&self, to: &mut Formatter) -> fmt::Result {
        match self {
            Invalid::Unfit(unfit) => unfit.fmt(to),
            Invalid::Refused(refusal) => refusal.fmt(to),
        }
    }
}

impl Error for Invalid {
    fn source(&self) -> Option<&(dyn Error + 'static)> {
        match self {
            Invalid::Unfit(unfit) => Some(unfit),
            Invalid::Refused(refusal) => Some(refusal),
        }
    }
}

impl From<Unfit> for Invalid {
    fn from(unfit: Unfit) -> Invalid {
        Invalid::Unfit(unfit)
    }
}

impl From<Refusal> for Invalid {
    fn from(refusal: Refusal) -> Invalid {
        Invalid::Refused(refusal)
    }
}
