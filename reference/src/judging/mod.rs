//! Judging: random inputs, put to the proved side and to the reference, and a table of what was seen. The proved side is the archive, which is
//! linked and called, or the programs, which are run.

#[cfg(feature = "proved")]
pub mod archive;
#[cfg(feature = "proved")]
mod archive_boards;
#[cfg(feature = "proved")]
mod archive_boxes;
#[cfg(feature = "proved")]
mod archive_can;
pub mod board_calls;
pub mod board_files;
#[cfg(feature = "proved")]
mod boards;
pub mod both_boxes;
pub mod boxes;
pub mod calls;
pub mod can_calls;
pub mod can_lists;
pub mod can_splits;
pub mod can_states;
pub mod can_talk;
pub mod children;
pub mod command;
pub mod counts;
pub mod covers;
pub mod damages;
pub mod frame_files;
pub mod frames;
pub mod functions;
pub mod histories;
pub mod indexed;
pub mod laid_boards;
pub mod laid_lines;
pub mod laid_out;
pub mod legs;
pub mod lengths;
#[cfg(feature = "proved")]
mod messages;
pub mod mixes;
pub mod moves;
pub mod near_blocks;
pub mod nests;
pub mod observed;
pub mod observed_can;
pub mod observed_covers;
pub mod output;
pub mod pairs;
pub mod parts;
pub mod programs;
pub mod questions;
pub mod random;
#[cfg(feature = "proved")]
mod ranges;
pub mod reached;
pub mod restarts;
pub mod row_labels;
pub mod row_sorts;
pub mod rows;
pub mod shapes;
pub mod sort;
#[cfg(test)]
mod stand_in;
#[cfg(test)]
mod stand_in_box;
#[cfg(test)]
mod stand_in_can;
#[cfg(test)]
mod stand_in_covers;
#[cfg(test)]
mod stand_in_damages;
#[cfg(test)]
mod stand_in_files;
#[cfg(test)]
mod stand_in_index;
#[cfg(test)]
mod stand_in_joins;
#[cfg(test)]
mod stand_in_lists;
#[cfg(test)]
mod stand_in_pairs;
#[cfg(test)]
mod stand_in_replaces;
#[cfg(test)]
mod stand_in_restarts;
#[cfg(test)]
mod stand_in_splits;
#[cfg(test)]
mod stand_in_survivors;
#[cfg(test)]
mod stand_in_why;
pub mod tables;
pub mod texts;
pub mod trial_files;
#[cfg(feature = "proved")]
mod trials;
pub mod verdict;
pub mod ways;
pub mod witness;
pub mod world;
