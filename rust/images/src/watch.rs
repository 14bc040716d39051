//! What a caller hears of while a long call runs: how far it is, and what cannot wait for the end.

pub trait Watch {
    /// Something of that name begins, which goes through so many bytes.
    fn begin(&mut self, what: &str, bytes: u64);
    /// So many bytes more are done.
    fn add(&mut self, bytes: u64);
    /// What began has ended.
    fn end(&mut self);
    /// A warning to people.
    fn warn(&mut self, text: &str);
}
