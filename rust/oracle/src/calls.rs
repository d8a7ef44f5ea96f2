//! The calls, one method of [`crate::Oracle`] for each. A method tests its refusals in the order
//! of document 01's table (5, 4, 2, 6, 3) and changes nothing before the last test. Conditions
//! of rows 5 and 4 that speak of an owner's record hold only if the owner is named.

#![allow(clippy::missing_errors_doc, clippy::needless_pass_by_value)]

mod bare;
mod collect;
mod main_thread;
mod make;
mod prototypes;
mod reads;
mod settings;
mod store;
mod tables;
mod threads;
