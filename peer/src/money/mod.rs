//! The money rules: offers, guarantees, offsets and failure charges.

pub mod checked;
pub mod failure;
pub mod intertie;
pub mod offer;
pub mod production;
