//! Safe calls of Bahrufaz: matches of a pattern in a graph store, from the part that its plan names.
//!
//! What the C boundary asks of a caller is met before a call is made. Slices have their lengths and
//! alignment, and rooms overlap nothing, by Rust's own rules; stack is measured, and where there is too
//! little the call runs on a thread that has enough. No input makes a call panic: what is wrong is an
//! [`Error`].
//!
//! A [`Store`] is admitted, so what is listed in it are the matches of the whole graph. Bytes from
//! elsewhere are [`StoreBytes`] until [`Store::admit`] takes them.
//!
//! ```
//! use bahrufaz::{Constraint, Draft, Pattern, Store};
//!
//! let draft = Draft {
//!     nodes: vec![(1, 44), (2, 0)],
//!     edges: vec![(1, 0)],
//!     constraints: vec![Constraint::new(&[], 1, 1), Constraint::new(&[1], 2, 4)],
//! };
//! let store = draft.build()?;
//! let pattern = Pattern::plain(&[1, 2], &[(1, 0)]).bytes()?;
//! assert_eq!(store.plan(&pattern)?.bound, 9);
//! assert_eq!(store.list(&pattern)?.rows().collect::<Vec<_>>(), [[0, 1]]);
//!
//! let mailed: Vec<u8> = store.into_bytes().into_vec();
//! let store = Store::admit(mailed)?;
//! assert_eq!(store.list(&pattern)?.len(), 1);
//! # Ok::<(), bahrufaz::Error>(())
//! ```

#![warn(missing_docs)]
#![cfg_attr(test, deny(missing_docs))]
#![cfg_attr(
    not(test),
    warn(clippy::unwrap_used, clippy::expect_used, clippy::panic, clippy::indexing_slicing)
)]

mod boundary;
mod bytes;
mod error;
mod listing;
mod number;
mod plan;
mod records;
mod stack;
mod store;

pub use bytes::{PatternBytes, StoreBytes};
pub use error::{Error, Wrong};
pub use listing::{Listed, Listing};
pub use number::{Call, Number, Refusal};
pub use plan::{Plan, Row};
pub use records::{Constraint, Draft, Operator, Pattern, PatternNode};
pub use store::Store;
