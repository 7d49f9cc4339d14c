//! The constructors and the limiter over a walk that may rest at home (document 02, request Four).
//! Their text is the original's, but for the module that they ask about rounds.

pub mod constructive;
pub mod evaluation;
pub mod fleet;
