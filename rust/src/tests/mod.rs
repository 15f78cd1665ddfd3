//! The tests of the package, beside those in its documents and in `tests/`.

mod given;
mod numbers;
mod records;
mod refused;
mod told;
