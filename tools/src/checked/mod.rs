//! A plan that anybody wrote: read, judged by the proved check, and told why it is refused.

pub mod broken;
pub mod not_allowed;
pub mod plan_step;
pub mod plan_text;
pub mod verdict;
