//! The command as people use it: the program is run on files and on standard
//! input, good and damaged, and its output and exit status are compared.
//!
//! Where many cases are tried, most are run inside this process, by the
//! function that the program itself is made of.

mod check_library;
mod check_rule;
mod desk;
mod explain;
mod explain_random;
mod help;
mod json;
mod limits;
mod select;
mod select_random;
mod streams;
mod usage;
mod values;
