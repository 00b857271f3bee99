//! Bytes of stores and of patterns, as types that cannot be taken for one another.

use std::borrow::Cow;
use std::fmt;

/// A type for bytes of one kind, lent or owned.
macro_rules! kind_of_bytes {
    ($(#[$doc:meta])* $name:ident) => {
        $(#[$doc])*
        #[derive(Clone, PartialEq, Eq)]
        pub struct $name<'a>(Cow<'a, [u8]>);

        impl $name<'_> {
            /// The bytes as a vector of their own; lent bytes are copied.
            pub fn into_vec(self) -> Vec<u8> {
                self.0.into_owned()
            }
        }

        impl<'a> From<&'a [u8]> for $name<'a> {
            fn from(bytes: &'a [u8]) -> Self {
                $name(Cow::Borrowed(bytes))
            }
        }

        impl From<Vec<u8>> for $name<'_> {
            fn from(bytes: Vec<u8>) -> Self {
                $name(Cow::Owned(bytes))
            }
        }

        impl AsRef<[u8]> for $name<'_> {
            fn as_ref(&self) -> &[u8] {
                &self.0
            }
        }

        impl fmt::Debug for $name<'_> {
            fn fmt(&self, f: &mut fmt::Formatter<'_>) -> fmt::Result {
                write!(f, concat!(stringify!($name), "({} bytes)"), self.0.len())
            }
        }
    };
}

kind_of_bytes! {
    /// The bytes of a store or draft, of which nothing is known yet.
    ///
    /// Any bytes may be taken for these: the calls say what is wrong about them. [`Store`](crate::Store)
    /// is for those that are admitted.
    StoreBytes
}

kind_of_bytes! {
    /// The bytes of a pattern. Any bytes may be taken for these: a call refuses what is no pattern.
    PatternBytes
}

impl PatternBytes<'_> {
    /// How many nodes the header says; right where a call answered, and so from 1 to 8.
    pub(crate) fn nodes(&self) -> usize {
        self.word(1)
    }

    /// How many edges the header says; right where a call answered.
    pub(crate) fn edges(&self) -> usize {
        self.word(2)
    }

    fn word(&self, place: usize) -> usize {
        let bytes = self.0.chunks_exact(4).nth(place).and_then(|word| word.try_into().ok());
        bytes.map_or(0, u32::from_le_bytes) as usize
    }
}
