//! Built programs and the C call held to the model, case by case. A run ends at the
//! first mismatch, or says what it covered.

pub mod alike;
pub mod apart;
pub mod arguments;
pub mod by_itself;
pub mod c_call;
pub mod calls;
pub mod calls_mismatch;
pub mod cases;
pub mod own_answers;
pub mod own_figures;
pub mod plan;
pub mod program;
pub mod soak;
pub mod tally;
