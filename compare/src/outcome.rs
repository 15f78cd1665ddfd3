//! How a comparison ended.

/// How a comparison ended.
#[derive(Clone, Debug, PartialEq, Eq)]
pub enum Outcome {
    /// No difference; a summary of counts.
    Same(String),
    /// A difference; the input that shows it, made short, and both outcomes.
    Differs(String),
    /// The comparison itself could not be run.
    Failed(String),
}
