//! A page of SVG that shows pairs of drawings and what the program answered: the cutting, or the
//! refusal. The answers are the program's; the page judges and cuts nothing itself.
//!
//! `reading` reads frames and answers, `lists` pairs with lists of pieces, `landings` where a mark lands and
//! `verdicts` what was said of a list; `words` says things; `plane`, `labels`, `colours`, `grazing`, `marks`
//! and `faults` find what to draw where, `figure` draws one drawing, `page` sets drawings and words under
//! each other, `checked` those of lists, and `svg` writes elements. (`marks` are those of a refusal; a mark
//! of 02, K1, is carried. `faults` are those of a list.)

mod checked;
mod colours;
pub(crate) mod faults;
mod figure;
mod grazing;
mod labels;
pub(crate) mod landings;
pub(crate) mod lists;
mod marks;
mod page;
mod plane;
pub(crate) mod reading;
mod svg;
pub(crate) mod verdicts;
pub mod words;

pub use checked::page_of_lists;
pub use lists::has_lists;
pub use page::{page, page_with_mark, MOST_PAIRS};
pub use verdicts::verdicts_of;
