//! The same loops twice: over the proved library, and over the twin.
pub mod plain;
pub mod proved;
