//! What a subcommand has to show when it is done.

#[derive(Clone, Debug, Default, PartialEq, Eq)]
pub struct Done {
    /// For standard output.
    pub printed: Vec<u8>,
    /// For standard error.
    pub noted: String,
    /// 0, or 1 where there is no route or a plan is refused.
    pub code: u8,
}

impl Done {
    pub fn printing(text: impl Into<Vec<u8>>) -> Done {
        Done { printed: text.into(), ..Done::default() }
    }
}
