//! The panel over lent tables, written from the paper: its record rules and
//! station records here, its outputs those of the plain panel.

pub mod breaking;
pub mod generate;
pub mod living;
pub mod panel;
pub mod record;
pub mod rows;
pub mod rules;
pub mod sets;
pub mod states;
pub mod stored;
pub mod tenants;
pub mod text;
