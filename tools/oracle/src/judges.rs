//! Who decides what an answer must be. The oracle notes its judges while it answers, so that what is counted is what was
//! asked and not what was meant to be.

use std::cell::Cell;

#[derive(Clone, Copy, PartialEq, Eq, Debug)]
pub enum Judge {
    /// The Rust's nine files as they are.
    Published,
    /// The copy of them with the rules of diagonals and of line ends that document 02, Jobs 7 and 11 ask for.
    Altered,
    /// The copy of them with one line more: the wave count, beside the copy that decides the cells.
    Counted,
    /// The table of refusals, as `refusals` reads it.
    Table,
    /// The model of the documents, for what has no Rust.
    Model,
}

impl Judge {
    pub const ALL: [Judge; 5] = [Judge::Published, Judge::Altered, Judge::Counted, Judge::Table, Judge::Model];

    pub fn name(self) -> &'static str {
        match self {
            Judge::Published => "published Rust",
            Judge::Altered => "altered Rust",
            Judge::Counted => "counted copy",
            Judge::Table => "table of refusals",
            Judge::Model => "model",
        }
    }
}

/// For each judge whether it decided, by its place in `Judge::ALL`.
pub type Judges = [bool; Judge::ALL.len()];

thread_local! {
    static DECIDED: Cell<Judges> = const { Cell::new([false; Judge::ALL.len()]) };
}

/// Notes that a judge decides the answer that is being made, or a part of it.
pub fn decides(judge: Judge) {
    let mut judges = DECIDED.get();
    judges[judge as usize] = true;
    DECIDED.set(judges);
}

/// What is answered, and by which judges it was decided.
pub fn during<T>(answer: impl FnOnce() -> T) -> (T, Judges) {
    DECIDED.set([false; Judge::ALL.len()]);
    (answer(), DECIDED.get())
}

/// What is worked out without deciding anything.
pub fn aside<T>(work: impl FnOnce() -> T) -> T {
    let decided = DECIDED.get();
    let worked = work();
    DECIDED.set(decided);
    worked
}
