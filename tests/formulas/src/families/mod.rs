//! Published families, by their definitions. Each file cites its source; each function says which sizes it takes.

pub mod completion;
pub mod equality;
pub mod impl_chain;
pub mod kbkf;
pub mod ordering;
pub mod parity;
pub mod pigeonhole;
