// The second program: document 01, and the requests of document 02 that have landed, read literally
// and written for plain correctness.

pub mod batch;
pub mod block;
pub mod forecast;
pub mod history;
pub mod judge;
pub mod layout;
pub mod lookup;
pub mod number;
pub mod page;
pub mod scores;
pub mod step;

pub use batch::{applied, judge_batch};
pub use forecast::{forecast, ForecastAnswer};
pub use history::History;
pub use judge::judge;
pub use layout::{card_words, format, live_pairs, Configuration, Pair, HIGHEST, LOWEST};
pub use lookup::{lookup, run_view, run_view_number, LookupAnswer, PostingReader};
pub use page::{page, read_page, PageAnswer};
pub use scores::{scores, Outcome, ScoresAnswer};
pub use step::{blocks_filled, due_write, step, step_limit, what_remains, StepAnswer};
