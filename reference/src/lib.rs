//! Second implementation of document 01, "Axle loss maps", with requests C-11, two
//! half-shaft sensors, C-12, writing component data, C-13, the newton metre of the
//! allowance at the input, C-14, which number was refused, C-15, the steps of a
//! sensor's uncertainty, C-16, a listing taken in, and C-17, retarder drag, of document
//! 02; written from these papers alone. It renders the whole of them, for checks by
//! running. Many questions to one map in one call are in it, too.
//! Beside it: traces of single numbers; a generator of component data and
//! questions, and what it takes to compare the answers with those of the proved
//! libraries; cases whose exact entries are printed; and the examples.

pub mod component;
pub mod exact;
pub mod listing;
pub mod loader;
pub mod lookup;
pub mod loss;
pub mod map;
pub mod refusal;
pub mod retarder;
pub mod steps;
pub mod wide;
pub mod writer;

pub mod command;
pub mod numerals;
pub mod trace;

pub mod allowance_cases;
pub mod allowances;
pub mod at_scale;
pub mod bench_run;
pub mod cases;
pub mod data;
pub mod drag_cases;
pub mod drag_tally;
pub mod exact_cases;
pub mod examples;
pub mod faults;
pub mod handed_numbers;
pub mod lent_maps;
pub mod load_cases;
pub mod load_faults;
pub mod load_pairs;
pub mod load_tally;
pub mod load_texts;
pub mod losses_cases;
pub mod losses_tally;
pub mod numbers_text;
pub mod questions;
pub mod random;
pub mod refused_number_cases;
pub mod refused_numbers;
pub mod remainders;
pub mod reply;
pub mod steps_cases;
pub mod steps_tally;
pub mod stored;
pub mod stored_files;
pub mod valid;
pub mod write_cases;
