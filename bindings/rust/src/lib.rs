//! The case access engine for dental laboratories: who may do what with a case, and on which grounds.
//!
//! An [`Engine`] holds the rules of one bundle. It is loaded once, then asked and edited; what it is
//! asked is decided on the edges as they then are. The crown of document 01:
//!
//! ```
//! use case_access::{Decision, Edge, Engine, Question, Refused, Set, Ticket};
//!
//! const CROWN: u8 = 0;
//! const ANA: u8 = 1;
//!
//! let bundle = std::fs::read("../../examples/crown.hex")?;
//! let mut engine = Engine::load(&bundle)?;
//!
//! // May Ana use method 0 on the crown? She may, as a checker (1) who has the role it needs (2).
//! let question = Question { method: 0, object: CROWN, requestor: ANA };
//! let decision = engine.lazy(question)?;
//! assert!(decision.is_granted());
//! assert_eq!(format!("{decision}"), "granted {1, 2}, evaluations 2");
//!
//! // A design station may propose such a grant. Without principal 2 it is not consistent.
//! let ticket = Ticket { question, set: Set::of_number(6) };
//! assert_eq!(engine.ticket(ticket), Ok(()));
//! assert_eq!(engine.ticket(Ticket { set: Set::of_number(2), ..ticket }), Err(Refused::NotConsistent));
//!
//! // She no longer checks the crown: no set of grounds will do.
//! engine.remove(Edge { label: 1, from: CROWN, to: ANA })?;
//! assert_eq!(engine.lazy(question)?, Decision::Denied { evaluations: 1 });
//!
//! // The crown is no user, so it cannot ask.
//! let asked = engine.lazy(Question { requestor: CROWN, ..question });
//! assert_eq!(asked, Err(Refused::NotUser));
//!
//! // The rules as they are now load again.
//! let written = engine.write();
//! assert!(Engine::load(&written).is_ok());
//! # Ok::<(), Box<dyn std::error::Error>>(())
//! ```

#![deny(missing_docs)]
#![deny(unsafe_op_in_unsafe_fn)]

mod call;
mod decision;
mod engine;
#[cfg(test)]
mod header;
mod record;
mod refused;
mod set;

pub use call::{Answer, Call, Edge, Question, Ticket};
pub use decision::Decision;
pub use engine::Engine;
pub use refused::Refused;
pub use set::Set;
