//! What the tests of the repository share: calls that may panic, parts in format strings, each part, random numbers,
//! what stands for the runtime of Rattle, numbers as `{:e}` writes them, and the search for names in sources.

pub mod calls;
pub mod formats;
pub mod parts;
pub mod random;
pub mod runtime;
pub mod scientific;
pub mod sources;
