//! An independent implementation of the scope, files to try it and the library on, and the library's C interface.

pub mod case_file;
pub mod classes;
pub mod fast;
pub mod generate;
pub mod ground;
mod heaviest;
pub mod hostile;
pub mod library;
mod notation;
pub mod random;
pub mod reference;
pub mod stack;
pub mod verdict;
