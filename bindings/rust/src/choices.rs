//! The choices that a call is made with, beside its table.
//!
//! The comparison with the original Rust (`differential`) takes this very file: so it uses nothing
//! else of this crate, and examples of it stand in other files.

/// Which of two usages receives where they tie: where they are equally large and equally strict.
///
/// It is asked at every level. Of two usages that are merged the first is the one given first; in a
/// fold it is the usage so far, in an array the element that is there, but of two map entries at one
/// offset the one that is being put in. So what was declared first need not stay inside of maps.
#[derive(Clone, Copy, Debug, Default, PartialEq, Eq, Hash)]
pub enum Ties {
    /// The second, as in the source.
    #[default]
    Second,
    /// The first.
    First,
}

/// What an array type contains one past its last element: at the index that is its length.
///
/// It is asked wherever a type is asked whether it supports a usage: in `supports`, and where a leaf
/// is merged. Below the length, above it, and in arrays without one, it changes nothing; nor do the
/// ends of structs ask for it.
#[derive(Clone, Copy, Debug, Default, PartialEq, Eq, Hash)]
pub enum Lookup {
    /// An element of size 0, as in the source: a place of no bytes, one past the last element.
    #[default]
    Lenient,
    /// Nothing, for drivers that refuse pointers to one past the end.
    Strict,
}

/// All choices of a call. The default is what the source does.
///
/// More choices may be added, so one is made of the default: `Choices::default().with_ties(..)`.
#[derive(Clone, Copy, Debug, Default, PartialEq, Eq, Hash)]
#[non_exhaustive]
pub struct Choices {
    /// Who receives on a tie, at every level.
    pub ties: Ties,
    /// What an array type contains at its length.
    pub lookup: Lookup,
}

/// The bit of [`Ties::First`] in the number that the library takes.
const TIES_TO_FIRST: u32 = 1;

/// The bit of [`Lookup::Strict`].
const STRICT_LOOKUP: u32 = 2;

impl Choices {
    /// The same with this tie rule.
    #[must_use]
    pub fn with_ties(self, ties: Ties) -> Choices {
        Choices { ties, ..self }
    }

    /// The same with this lookup.
    #[must_use]
    pub fn with_lookup(self, lookup: Lookup) -> Choices {
        Choices { lookup, ..self }
    }

    /// The choices as the library's one number: 1 for ties to the first and 2 for the strict lookup,
    /// added.
    #[must_use]
    pub fn number(self) -> u32 {
        let ties = match self.ties {
            Ties::Second => 0,
            Ties::First => TIES_TO_FIRST,
        };
        let lookup = match self.lookup {
            Lookup::Lenient => 0,
            Lookup::Strict => STRICT_LOOKUP,
        };
        ties | lookup
    }

    /// The choices that a number means. Bits that no choice has are not looked at.
    #[must_use]
    pub fn of(number: u32) -> Choices {
        let ties = if number & TIES_TO_FIRST == 0 { Ties::Second } else { Ties::First };
        let lookup = if number & STRICT_LOOKUP == 0 { Lookup::Lenient } else { Lookup::Strict };
        Choices { ties, lookup }
    }
}
