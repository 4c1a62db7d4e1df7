//! A panel with one output, spoken to in hexadecimal.

use panels::list_text::{read_string, Line};
use panels::{Answer, Found, Panel, Parameters};

pub struct Bench<Chosen: Panel> {
    panel: Chosen,
    number: u32,
}

impl<Chosen: Panel> Bench<Chosen> {
    // one of the two is not in every test
    #[allow(dead_code)]
    pub fn new() -> Bench<Chosen> {
        Bench {
            panel: Chosen::with_outputs(1),
            number: 0,
        }
    }

    /// With that set (§6).
    #[allow(dead_code)]
    pub fn with(parameters: Parameters) -> Bench<Chosen> {
        let Ok(panel) = Chosen::start(parameters) else {
            panic!("{parameters:?} are not started");
        };
        Bench { panel, number: 0 }
    }

    pub fn bytes(&mut self, text: &str) -> Answer {
        match read_string(text) {
            Ok(Line::Content(bytes)) => self.panel.frame(&bytes),
            _ => panic!("{text} is no string of bytes"),
        }
    }

    /// Above all that were given before.
    pub fn next_number(&mut self) -> u32 {
        self.number += 1;
        self.number
    }

    /// A frame of station 0 with the next number.
    pub fn frame(&mut self, kind: u8, time: u64, rest: &str) -> Answer {
        let number = self.next_number();
        self.bytes(&format!("{kind:02X} 00 {number:08X} {time:012X} 00 {rest}"))
    }

    // some tests have none
    #[allow(dead_code)]
    pub fn clock(&mut self, time: u64) {
        assert_eq!(self.bytes(&format!("01 {time:012X}")), Answer::Done);
    }

    #[allow(dead_code)]
    pub fn found(&self) -> Found {
        self.panel.found().remove(0)
    }

    /// In_Process, Progress_Value and burning time then.
    #[allow(dead_code)]
    pub fn moves(&mut self, time: u64, expected: (bool, u32, u64)) {
        self.clock(time);
        let found = self.found();
        let moved = (found.in_process, found.progress_value, found.burning);
        assert_eq!(moved, expected, "at {time}");
    }
}

/// Runs a function with the bench of each panel.
#[allow(unused_macros)]
macro_rules! on_both_panels {
    ($($name:ident)*) => {
        $(mod $name {
            #[test]
            fn plain() {
                super::$name(super::Bench::<panels::PlainPanel>::new());
            }

            #[test]
            fn fast() {
                super::$name(super::Bench::<panels::FastPanel>::new());
            }
        })*
    };
}
