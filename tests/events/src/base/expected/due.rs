//! Movements, durations and warnings.

use plain::frame::*;

use crate::base::event::*;
use crate::words::{BOTH, COMMANDS, DARKENING};

pub fn movement_events(events: &mut Vec<Event>) {
    for ramp in BOTH {
        for up in BOTH {
            for replaces in BOTH {
                events.push(Event::MovementStarted { ramp, up, replaces });
            }
            events.push(Event::MovementRanOut { ramp, up });
        }
    }
    // STOP and RELINQUISH have no target.
    for kind in FADE_TO..=GOTO {
        events.push(Event::MovementReplacedByNone { kind: kind.into() });
    }
}

pub fn duration_events(events: &mut Vec<Event>) {
    for other_slot in [None, Some(false), Some(true)] {
        for (slot_live, winner) in [(false, false), (true, false), (true, true)] {
            events.push(Event::DurationSet {
                replaces_other_slot: other_slot,
                slot_live,
                winner,
            });
        }
        events.push(Event::DurationCancelled { other_slot });
    }
    for kind in COMMANDS {
        for own_slot in BOTH {
            let kind = kind.into();
            events.push(Event::DurationLeftRunning { kind, own_slot });
        }
    }
    events.push(Event::WholeDayDurationFired);
    for fired_in in [
        FiredIn::Rest,
        FiredIn::ItsOwnMovement,
        FiredIn::AnotherMovement,
        FiredIn::WarningAtItsOwnSlot,
        FiredIn::WarningElsewhere,
    ] {
        for slot_live in BOTH {
            // The owner of a movement is live.
            if slot_live || fired_in != FiredIn::ItsOwnMovement {
                events.push(Event::DurationFired {
                    fired_in,
                    slot_live,
                });
            }
        }
    }
    for own in BOTH {
        for coincidence in [
            Coincidence::MovementEnd { own_movement: own },
            Coincidence::WarningTurn { own_slot: own },
            Coincidence::WarningEnd {
                own_slot: own,
                lit: false,
            },
            Coincidence::WarningEnd {
                own_slot: own,
                lit: true,
            },
        ] {
            events.push(Event::DurationFiredTogetherWith(coincidence));
        }
    }
}

pub fn warning_events(events: &mut Vec<Event>) {
    for reason in [
        NoWarning::PriorityBelowSeven,
        NoWarning::BlinkDisabled,
        NoWarning::NoTime,
        NoWarning::StrongerSlotLive,
        NoWarning::WasDark,
        NoWarning::DefaultLit,
        NoWarning::WeakerSlotLit,
    ] {
        // With a warning running the write is read by other sentences, and
        // slot 6 is live besides, so AlreadyRunning is never alone.
        events.push(Event::NoWarningOnlyFor(reason));
    }
    for (dark, lit) in [(true, true), (true, false), (false, true)] {
        for either in BOTH {
            events.push(Event::WarningStarted {
                dark,
                lit,
                in_movement: either,
            });
            events.push(Event::WarningRanOut {
                dark,
                lit,
                own_slot_live: either,
            });
        }
    }
    for slot in 7..=16 {
        events.push(Event::WarningStartedAt { slot });
    }
    events.push(Event::WarningStartedByMinusZero);
    for kind in DARKENING {
        events.push(Event::CommandInsteadOfWarning { kind: kind.into() });
    }
    events.push(Event::WarningTurned);
    events.push(Event::WarningTurnedOutOfRange);
    events.push(Event::TwoDayWarningRanOut);
    events.extend(BOTH.map(|lit| Event::WarningRanOutUnderOtherDelay { lit }));
    let writes = [
        Breaker::ZeroAtItsOwnSlot,
        Breaker::ZeroAtAnotherSlotAboveSix,
        Breaker::ZeroBelowSix,
        Breaker::LitAtItsOwnSlot,
        Breaker::LitAtAnotherSlotAboveSix,
        Breaker::LitBelowSix,
    ];
    let commands = COMMANDS.map(|kind| Breaker::Command(kind.into()));
    for phase in [Phase::Dark, Phase::Lit] {
        for by in writes.into_iter().chain(commands) {
            events.push(Event::WarningBroken { by, phase });
        }
    }
    // The warning's own slot, and slots beside it, live and empty.
    for own_slot in BOTH {
        for was_live in BOTH {
            events.push(Event::SlotEmptiedInWarning { own_slot, was_live });
        }
    }
}
