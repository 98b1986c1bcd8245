//! A second implementation of the role keeper of document 01 and of items 1 to
//! 3 of document 02, and drivers that compare any other keeper and importer
//! with it.

pub mod compare;
pub mod compare_sheets;
pub mod generate;
pub mod generate_sheets;
pub mod random;
pub mod reference;
pub mod sheets;
