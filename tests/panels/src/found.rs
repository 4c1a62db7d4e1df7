//! What is found of an output after a list.
//!
//! "Settings are the writable properties but 0B; the last command is
//! properties 0F to 14; a slot is compared by being live and, if live, by its
//! level; burning time in milliseconds."

use std::fmt;

#[derive(Clone, Debug, PartialEq, Eq)]
pub struct Found {
    pub slots: [Option<u32>; 16],
    pub present_value: u32,
    pub progress_value: u32,
    pub in_process: bool,
    /// Properties 01 to 0A as they read.
    pub settings: [u32; 10],
    /// Properties 0F to 14 as they read; nothing for Absent.
    pub last: [Option<u32>; 6],
    pub burning: u64,
    /// The last command as the writer of §1 makes it: the L bytes.
    pub tagged: Vec<u8>,
    /// Properties 17 to 1B as they read (§3): the relay's settings,
    /// Binary_Present_Value and the relay's state.
    pub relay: [u32; 5],
}

/// The lines of one output, without the line that says which.
impl fmt::Display for Found {
    fn fmt(&self, formatter: &mut fmt::Formatter) -> fmt::Result {
        write!(formatter, "slots")?;
        for slot in self.slots {
            match slot {
                Some(level) => write!(formatter, " {level}")?,
                None => write!(formatter, " -")?,
            }
        }
        writeln!(formatter)?;
        writeln!(formatter, "pv {}", self.present_value)?;
        writeln!(formatter, "progress {}", self.progress_value)?;
        writeln!(formatter, "inprocess {}", u8::from(self.in_process))?;
        write!(formatter, "settings")?;
        for value in self.settings {
            write!(formatter, " {value:08X}")?;
        }
        writeln!(formatter)?;
        write!(formatter, "last")?;
        for value in self.last {
            match value {
                Some(value) => write!(formatter, " {value:08X}")?,
                None => write!(formatter, " -")?,
            }
        }
        writeln!(formatter)?;
        writeln!(formatter, "burning {}", self.burning)?;
        write!(formatter, "tagged ")?;
        for byte in &self.tagged {
            write!(formatter, "{byte:02X}")?;
        }
        writeln!(formatter)?;
        write!(formatter, "relay")?;
        for value in self.relay {
            write!(formatter, " {value:08X}")?;
        }
        writeln!(formatter)
    }
}
