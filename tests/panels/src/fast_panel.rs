//! The fast panel, with its records, behind the common face.

/// Makes the panel `$name` of a crate that has the shape of `fast`: of `fast`
/// itself, and of the spoilt panels that are made of its sources.
#[macro_export]
macro_rules! face_of_fast {
    ($(#[$comment:meta])* $name:ident, $source:ident, $check:literal) => {
        $(#[$comment])*
        pub struct $name {
            pub outputs: Vec<$source::Output>,
            pub stations: Vec<$source::Station>,
            pub kept: $source::PanelRecord,
        }

        impl $crate::Panel for $name {
            /// Over tables of just as many records, up to a number that no
            /// panel has.
            fn start(parameters: $crate::Parameters) -> Result<$name, $crate::Answer> {
                const MOST: u32 = 100;
                let (outputs, stations) = (parameters.outputs, parameters.stations);
                let mut panel = $name::lent(
                    outputs.min(MOST),
                    stations.min(MOST),
                    // The start is to write it.
                    $crate::Parameters {
                        stations: 0,
                        outputs: 0,
                        fade: 0,
                        duration: 0,
                        tenants: 0,
                    },
                );
                match panel.start_with(parameters) {
                    $source::Answer::Done => Ok(panel),
                    answer => Err(answer.into()),
                }
            }

            fn frame(&mut self, bytes: &[u8]) -> $crate::Answer {
                let (outputs, stations) = (&mut self.outputs, &mut self.stations);
                $source::frame::<$check>(outputs, stations, &mut self.kept, bytes).into()
            }

            fn found(&self) -> Vec<$crate::Found> {
                (0..self.outputs.len())
                    .map(|output| self.found_of(output))
                    .collect()
            }
        }

        impl $name {
            /// Fresh records, at time 0.
            fn lent(outputs: u32, stations: u32, kept: $crate::Parameters) -> $name {
                let parameters = $name::set_of(kept);
                $name {
                    outputs: vec![$source::Output::fresh(&parameters); outputs as usize],
                    stations: vec![$source::Station::FRESH; stations as usize],
                    kept: $source::PanelRecord {
                        time: 0,
                        parameters,
                    },
                }
            }

            fn set_of(parameters: $crate::Parameters) -> $source::Parameters {
                $source::Parameters {
                    stations: parameters.stations,
                    outputs: parameters.outputs,
                    longest_fade: parameters.fade,
                    longest_duration: parameters.duration,
                    tenants: parameters.tenants,
                }
            }

            fn start_with(&mut self, parameters: $crate::Parameters) -> $source::Answer {
                let (outputs, stations) = (&mut self.outputs, &mut self.stations);
                let parameters = $name::set_of(parameters);
                $source::start(outputs, stations, &mut self.kept, parameters)
            }

            pub fn found_of(&self, output: usize) -> $crate::Found {
                let (output, time) = (&self.outputs[output], self.kept.time);
                let read = |property| match output.read_property(time, property) {
                    Ok($source::Answer::Value(value)) => Some(value),
                    _ => None,
                };
                $crate::Found {
                    slots: std::array::from_fn(|index| output.slot(index as u8 + 1)),
                    present_value: output.present_value(),
                    progress_value: output.progress_value(time),
                    in_process: output.movement.is_some(),
                    settings: std::array::from_fn(|index| read(0x01 + index as u8).unwrap_or(0)),
                    last: std::array::from_fn(|index| read(0x0F + index as u8)),
                    burning: output.burning,
                    tagged: output.last.tagged().bytes().to_vec(),
                    relay: std::array::from_fn(|index| read(0x17 + index as u8).unwrap_or(0)),
                }
            }

            /// Burning time after each step of a clock, of a table that is lent
            /// with such a movement in it.
            pub fn burning_of_lent(
                lent: &$crate::lent::LentMovement,
                steps: &[u64],
            ) -> Vec<u64> {
                use $source::output::{Movement, Pace};
                let mut panel = <$name as $crate::Panel>::with_outputs(1);
                panel.kept.time = lent.gone.into();
                panel.outputs[0].store($crate::lent::OWNER, lent.to);
                panel.outputs[0].judge();
                panel.outputs[0].movement = Some(Movement {
                    owner: $crate::lent::OWNER,
                    from: lent.from,
                    to: lent.to,
                    began: 0,
                    length: lent.length,
                    pace: match lent.rate {
                        Some(units_per_second) => Pace::Ramp { units_per_second },
                        None => Pace::Fade,
                    },
                });
                let go = |step: &u64| {
                    let mut clock = (panel.kept.time + step).to_be_bytes()[1..].to_vec();
                    clock[0] = 0x01;
                    let answer = $crate::Panel::frame(&mut panel, &clock);
                    assert_eq!(answer, $crate::Answer::Done, "{lent:?}");
                    panel.outputs[0].burning
                };
                steps.iter().map(go).collect()
            }
        }

        impl $name {
            /// Binary_Present_Value when a lent warning has turned.
            pub fn active_of_lent(lent: &$crate::lent_warning::LentWarning) -> bool {
                use $crate::lent_warning::{BLINK_SLOT, DUE, OWN_SLOT, STRONGER_SLOT};
                use $source::output::{RunningDuration, Warning};
                let mut panel = <$name as $crate::Panel>::with_outputs(1);
                let output = &mut panel.outputs[0];
                output.store(STRONGER_SLOT, lent.stronger);
                output.store(BLINK_SLOT, 0);
                output.store(OWN_SLOT, 0);
                output.active = lent.active;
                output.duration = Some(RunningDuration {
                    slot: STRONGER_SLOT,
                    end: DUE,
                });
                output.warning = Some(Warning {
                    slot: OWN_SLOT,
                    level: lent.level,
                    turn: DUE,
                    end: 2 * DUE,
                });
                let answer = $crate::Panel::frame(&mut panel, &$crate::lent_warning::CLOCK);
                assert_eq!(answer, $crate::Answer::Done, "{lent:?}");
                panel.outputs[0].active
            }
        }

        impl $name {
            /// The answer over tables that are lent with a set, and what is left
            /// of them. Record rules are checked.
            pub fn over_lent_set(
                lent: &$crate::lent_set::LentSet,
            ) -> ($crate::Answer, $crate::lent_set::Left) {
                use $crate::lent_set::*;
                use $source::output::{Movement, Pace, RunningDuration};
                let mut panel = $name::lent(lent.outputs, lent.stations, lent.kept);
                panel.kept.time = TIME;
                if let Some(output) = panel.outputs.first_mut() {
                    output.burning = BURNING;
                    match lent.held {
                        Held::Nothing => {}
                        Held::FadeTime(value) => output.settings.fade_time = value,
                        Held::BlinkTime(value) => output.settings.blink_time = value,
                        Held::BlinkWarnDelay(value) => output.settings.blink_warn_delay = value,
                        Held::Movement(length) => {
                            let (owner, to) = ($crate::lent::OWNER, 65_536);
                            output.store(owner, to);
                            output.movement = Some(Movement {
                                owner,
                                from: 0,
                                to,
                                began: TIME,
                                length,
                                pace: Pace::Fade,
                            });
                        }
                        Held::Duration(left) => {
                            let (slot, end) = ($crate::lent::OWNER, TIME + left);
                            output.duration = Some(RunningDuration { slot, end });
                        }
                    }
                }
                if let Some(station) = panel.stations.first_mut() {
                    station.number = NUMBER;
                    station.frame[0] = KIND;
                }
                let text = |panel: &$name| {
                    let $name {
                        outputs,
                        stations,
                        kept,
                    } = panel;
                    format!("{outputs:?} {stations:?} {kept:?}")
                };
                let before = text(&panel);
                let (outputs, stations) = (&mut panel.outputs, &mut panel.stations);
                let kept = &mut panel.kept;
                let answer = match lent.asked {
                    Asked::Start(parameters) => panel.start_with(parameters),
                    Asked::Clock => $source::frame::<true>(outputs, stations, kept, &CLOCK),
                    Asked::NoByte => $source::frame::<true>(outputs, stations, kept, &[]),
                };
                let after = text(&panel);
                let left = match lent.asked {
                    _ if after == before => Left::AsItWas,
                    Asked::Start(parameters)
                        if after == text(&$name::lent(lent.outputs, lent.stations, parameters)) =>
                    {
                        Left::Started
                    }
                    _ => Left::Otherwise,
                };
                (answer.into(), left)
            }
        }

        impl From<$source::Answer> for $crate::Answer {
            fn from(answer: $source::Answer) -> $crate::Answer {
                match answer {
                    $source::Answer::Done => $crate::Answer::Done,
                    $source::Answer::Value(value) => $crate::Answer::Value(value),
                    $source::Answer::Absent => $crate::Answer::Absent,
                    $source::Answer::Refused(refusal) => $crate::Answer::Refused(refusal.number()),
                }
            }
        }
    };
}

face_of_fast!(
    /// It checks the record rules on every frame, so that a record that breaks
    /// one shows as refusal 1.
    FastPanel,
    fast,
    true
);
