//! The fast panel spoilt in one of many ways, or in none: the sources of `fast`
//! with the edits of `edits/` put in by the build, each behind a switch.

// made text: an edit's place is put in brackets whether it needs them or not
#![allow(unused_parens, unused_variables, unused_braces)]

pub mod bought;
pub mod forms;
pub mod halves;
pub mod kept_real;
pub mod switch;
pub mod table;

include!(concat!(env!("OUT_DIR"), "/panel.rs"));

panels::face_of_fast!(
    /// It does not check the record rules: each edit is to show by what it
    /// does, and not by refusal 1 because its record then breaks a rule.
    SpoiltPanel,
    crate,
    false
);
