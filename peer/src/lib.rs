//! An independent implementation of document 01, the paper of rules ("01" in the comments), and of
//! the requests of document 02 that have landed, to run the product against: written from the
//! documents, with exact whole numbers, and sharing no code with it.
//!
//! `drawing` judges drawings and knows the strict sight, `centre_sight` a centre's, by what is
//! `inside`, and `sight` is a table of both; `cutting` searches from sight alone, `telling` tells
//! what it has found, and `exhaustive` does the same for few corners by trying every cutting;
//! `desk` answers a pair, `frames` a whole input; `marks` carries a mark across, by exact fractions
//! (`fraction`); `checker` checks a cutting that was made elsewhere. `pairs` makes drawings, pairs,
//! marks, lists, calls and inputs to try; `program` runs another program on them, `desks` compares
//! the calls of another library, and `library` is the product's.
//! `bench` measures, with a `rival` search beside the peer's. `entry` makes frames of drawings as
//! people have them; `show` draws pairs with a program's answers, and `tell` says them in words; `ask`
//! makes questions of frames for the product's second program.

pub mod ask;
pub mod bench;
pub mod centre_sight;
pub mod checker;
pub mod cutting;
pub mod desk;
pub mod desks;
pub mod drawing;
pub mod entry;
pub mod exhaustive;
pub mod fraction;
pub mod frames;
pub mod inside;
pub mod library;
pub mod marks;
pub mod pairs;
pub mod program;
pub mod rival;
pub mod show;
pub mod sight;
pub mod tell;
pub mod telling;
