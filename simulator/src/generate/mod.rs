//! Seeded generators of everything that the reference is compared with: sets, tables, runs, calls,
//! paths, buffers, expression files, and lines and lists of guards; valid ones and each kind of damage.

pub mod buffers;
pub mod calls;
pub mod deed_outcomes;
pub mod expression_files;
pub mod expressions;
pub mod faulting_tables;
pub mod guard_line_damage;
pub mod guard_lines;
pub mod guard_list_damage;
pub mod guard_lists;
pub mod guarded_sets;
pub mod idling_sets;
pub mod longest_twins;
pub mod paths;
pub mod record_list;
pub mod set_damage;
pub mod sets;
pub mod states;
pub mod table_damage;
pub mod table_forms;
pub mod table_states;
pub mod tables;
pub mod times;
pub mod waiting_sets;
pub mod ways;
