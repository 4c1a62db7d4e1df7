//! The panels behind one face, and the text in which lists and what is found
//! after them are written.

pub mod answer;
pub mod fast_panel;
pub mod found;
pub mod lent;
pub mod lent_set;
pub mod lent_warning;
pub mod list_text;
pub mod panel;
pub mod plain_panel;
pub mod replay;

pub use answer::Answer;
pub use fast_panel::FastPanel;
pub use found::Found;
pub use panel::Panel;
pub use plain::{Parameter, Parameters};
pub use plain_panel::PlainPanel;
