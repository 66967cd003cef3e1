//! An access engine for dental laboratories: relations, grounds and grants.
//!
//! Every function says in a comment which sentence of the contract it follows.
//! A record is zeroed before its first load; from then on it is blank, loaded, or
//! edited from one of these. So number 19 arises on a zeroed one alone. The index of
//! request 2026-04 is not kept but built where it is asked for, and so never disagrees.

mod body;
mod calls;
mod edit;
mod formula;
mod grounds;
mod index;
mod kind;
mod line;
mod load;
mod policy;
mod predicate;
mod question;
mod relation;
mod ticket;
mod write;

pub use calls::{answer, load, replay, rewrite, write, CALL_OCTETS};
pub use index::Index;
pub use load::Refusal;
pub use policy::Policy;
pub use question::Answer;
