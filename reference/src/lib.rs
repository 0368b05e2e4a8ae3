//! A reference player for records of the VeeR EH1 interrupt controller.

pub mod compare;
pub mod compare_text;
pub mod error_counter;
pub mod event;
pub mod generate;
pub mod machine;
pub mod player;
pub mod program;
pub mod random;
pub mod rank;
pub mod record;
pub mod script;
pub mod text;
pub mod texts;
pub mod timer;
pub mod tree;
