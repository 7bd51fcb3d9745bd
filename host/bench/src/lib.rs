//! What the two measuring programs share: the plans, and how times are told.

pub mod batch;
pub mod times;
