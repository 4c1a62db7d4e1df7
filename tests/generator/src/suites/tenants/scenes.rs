//! Scenes: tenants and service stations read the same in one moment; levels at
//! whole percents and a unit beside them, written and in movements; slots, live
//! and empty; reads that come again when the output has changed.

use events::tenants::{is_hidden, OTHER_LEVELS};
use events::words::COMMANDS;
use plain::frame::*;
use plain::real::{level_as_real, HUNDRED_PERCENT, ONE_PERCENT};
use plain::settings::*;

use crate::body::Body;
use crate::list::Generator;
use crate::timing::When;
use crate::values::{self, ABSENT, PRIORITIES, REAL_HUNDRED_PERCENT, REAL_ONE_PERCENT, SHORTEST};

/// A fade by one unit a millisecond is that long on each side of a percent.
const UNITS: u32 = 50;

impl Generator {
    pub(crate) fn plan_for_tenants(&mut self, output: u8) {
        match self.random.below(26) {
            0..=3 => self.plan_properties_by_both(output),
            4..=6 => self.plan_percent_shown(output),
            7..=10 => self.plan_percent_passed(output),
            11..=13 => self.plan_slots_by_both(output),
            14..=16 => self.plan_reads_again(output),
            17 => self.plan_reads_turned_down(output),
            18 | 19 => self.plan_other_level(output),
            20 | 21 => self.plan_last_command_by_both(output),
            22 => self.plan_burning_by_both(output),
            23 => self.plan_edge_of_stations(output),
            _ => self.plan_act_by_one(output),
        }
    }

    /// A station with that mark, often the first or the last one; any if there
    /// is none.
    fn some_station_marked(&mut self, tenant: bool) -> u8 {
        let parameters = *self.panel.parameters();
        let last = parameters.stations as u8 - 1;
        let marked: Vec<u8> = (0..=last)
            .filter(|station| parameters.is_tenant(*station) == tenant)
            .collect();
        let ends: Vec<u8> = [0, last]
            .into_iter()
            .filter(|station| marked.contains(station))
            .collect();
        match (ends.is_empty(), marked.is_empty()) {
            (_, true) => self.some_station(),
            (false, _) if self.random.chance(50) => self.random.pick(&ends),
            _ => self.random.pick(&marked),
        }
    }

    /// Then both of them, either one first, in one moment.
    fn plan_read_by_both(&mut self, output: u8, property: u8, when: When) {
        let tenant_first = self.random.chance(50);
        for (tenant, when) in [(tenant_first, when), (!tenant_first, When::Now)] {
            self.plan_read_by(tenant, output, property, when);
        }
    }

    fn plan_read_by(&mut self, tenant: bool, output: u8, property: u8, when: When) -> u8 {
        let station = self.some_station_marked(tenant);
        self.plan_from(Some(station), output, Some(Body::Read { property }), when);
        station
    }

    /// What changes by itself, and what slots hold.
    pub(crate) fn plan_look_by_both(&mut self, output: u8) {
        let winner = self.output(output).winner().unwrap_or(16);
        let is_warned = self.output(output).warning.is_some();
        let property = match self.random.below(10) {
            0..=2 if is_warned => LAST_HIDDEN_SLOT,
            0..=3 => PROGRESS_VALUE,
            4 | 5 => PRESENT_VALUE,
            6 => FIRST_SLOT + winner - 1,
            7 => LAST_HIDDEN_SLOT,
            8 => self.random.between(FIRST_SLOT.into(), LAST_SLOT.into()) as u8,
            _ => self.random.between(1, RELAY_STATE.into()) as u8,
        };
        let when = self.sometime();
        self.plan_read_by_both(output, property, when);
    }

    /// Some of 01 to 30, one after the other.
    fn plan_properties_by_both(&mut self, output: u8) {
        let count = self.random.between(3, 10) as u8;
        let first = self.random.between(1, (LAST_SLOT - count + 1).into()) as u8;
        for property in first..first + count {
            self.plan_read_by_both(output, property, When::Now);
        }
    }

    /// Of slots 1 to 6 mostly: what is wrong with the frame comes first.
    pub(crate) fn read_to_be_spoilt(&mut self) -> Body {
        match self.random.chance(60) {
            true => {
                let property = self.some_hidden_slot();
                Body::Read { property }
            }
            false => self.any_read(),
        }
    }

    fn some_hidden_slot(&mut self) -> u8 {
        let (first, last) = (FIRST_SLOT.into(), LAST_HIDDEN_SLOT.into());
        self.random.between(first, last) as u8
    }

    /// A whole number of percent, a unit beside it, half of one, or anything.
    fn some_level(&mut self) -> u32 {
        let percent = match self.random.below(5) {
            0 => self.random.pick(&[1, 99, 100]),
            _ => self.random.between(1, 100) as u32,
        } * ONE_PERCENT;
        let any = self
            .random
            .between(ONE_PERCENT.into(), HUNDRED_PERCENT.into()) as u32;
        let level = match self.random.below(12) {
            0 => 0,
            1..=3 => percent - 1,
            4 | 5 => percent,
            6 | 7 => percent + 1,
            8 => percent + ONE_PERCENT / 2,
            // Tenths are not whole percents either.
            9 => percent + ONE_PERCENT / 10 * self.random.between(1, 9) as u32,
            _ => any,
        };
        match level {
            0 => 0,
            _ => level.clamp(ONE_PERCENT, HUNDRED_PERCENT),
        }
    }

    /// Written to a slot, or shown for Relinquish_Default, Min or Max.
    fn plan_percent_shown(&mut self, output: u8) {
        let level = level_as_real(self.some_level());
        let own = self.plan_strongest_slot(output);
        match self.random.below(9) {
            0..=4 => self.plan_write(output, own, level),
            5 | 6 => {
                for slot in own..=16 {
                    if self.output(output).slot(slot).is_some() {
                        self.plan(output, Body::Empty { priority: slot }, When::Now);
                    }
                }
                self.plan_property(output, RELINQUISH_DEFAULT, level);
            }
            7 if level != 0 => {
                self.plan_write(output, own, REAL_ONE_PERCENT);
                self.plan_property(output, MINIMUM, level);
            }
            _ if level != 0 => {
                self.plan_write(output, own, REAL_HUNDRED_PERCENT);
                self.plan_property(output, MAXIMUM, level);
            }
            _ => self.plan_write(output, own, level),
        }
        for property in [PRESENT_VALUE, PROGRESS_VALUE, FIRST_SLOT + own - 1] {
            self.plan_read_by_both(output, property, When::Now);
        }
        self.plan_whole_range(output);
    }

    fn plan_whole_range(&mut self, output: u8) {
        for (property, value) in [
            (MINIMUM, REAL_ONE_PERCENT),
            (MAXIMUM, REAL_HUNDRED_PERCENT),
            (RELINQUISH_DEFAULT, 0),
        ] {
            if self.random.chance(60) {
                self.plan_property(output, property, value);
            }
        }
    }

    /// Nothing is stronger; levels are shown as they are.
    fn plan_strongest_slot(&mut self, output: u8) -> u8 {
        let own = self.random.pick(&PRIORITIES);
        for stronger in (1..own).filter(|slot| *slot != 6) {
            if self.output(output).slot(stronger).is_some() {
                self.plan(output, Body::Empty { priority: stronger }, When::Now);
            }
        }
        self.plan_setting(output, MINIMUM, REAL_ONE_PERCENT);
        self.plan_setting(output, MAXIMUM, REAL_HUNDRED_PERCENT);
        own
    }

    /// A fade by a unit a millisecond, looked at a unit before a whole percent,
    /// at it and a unit after it; or a fade from or to 0, at its first unit and
    /// about one percent.
    fn plan_percent_passed(&mut self, output: u8) {
        let own = self.plan_strongest_slot(output);
        self.plan_command_priority(output, own, When::Now);
        let two_percent = 2 * ONE_PERCENT;
        let slowly = self.panel.parameters().fade >= two_percent && self.can_live(two_percent);
        let (low, high, mut looks) = if slowly && self.random.chance(40) {
            (0, two_percent, [1, ONE_PERCENT - 2, 1, 1])
        } else {
            let any = self.random.between(2, 99) as u32;
            let percent = self.random.pick(&[any, any, 99]) * ONE_PERCENT;
            (
                percent - UNITS,
                percent + UNITS,
                [UNITS - 1, 1, 1, UNITS - 2],
            )
        };
        let (mut from, mut to) = (low, high);
        if self.random.chance(50) {
            (from, to) = (high, low);
            // The same levels the other way round.
            if low == 0 {
                looks = [ONE_PERCENT - 1, 1, 1, ONE_PERCENT - 2];
            }
        }
        self.plan_command(output, GOTO, &[level_as_real(from), 0]);
        let fields = [level_as_real(to), high - low, ABSENT];
        self.plan_command(output, FADE_TO_OVER, &fields);
        for later in looks {
            let when = When::After(later.into());
            self.plan_read_by_both(output, PROGRESS_VALUE, when);
        }
        // It moves, though the target has no more percents.
        self.plan_read_by_both(output, IN_PROCESS, When::Now);
        self.plan_read_by_both(output, PRESENT_VALUE, When::Now);
    }

    /// Slots 1 to 6 and the others, a few of them live.
    fn plan_slots_by_both(&mut self, output: u8) {
        let first = self.random.pick(&[1, 1, 4, 5, 7, 11]);
        let slots = first..first + 6;
        for priority in slots.clone().filter(|slot| *slot != 6) {
            let bits = level_as_real(self.some_level());
            match self.random.below(3) {
                0 => self.plan(output, Body::Empty { priority }, When::Now),
                _ => self.plan_write(output, priority, bits),
            }
        }
        for slot in slots {
            self.plan_read_by_both(output, FIRST_SLOT + slot - 1, When::Now);
        }
        self.plan_read_by_both(output, PRESENT_VALUE, When::Now);
        if self.random.chance(50) {
            for priority in 1..=5 {
                self.plan(output, Body::Empty { priority }, When::Now);
            }
        }
    }

    /// A read by each, then what was read changes, and both come again.
    fn plan_reads_again(&mut self, output: u8) {
        let priority = self.random.pick(&[1, 2, 3, 4, 5]);
        let property =
            self.random
                .pick(&[PRESENT_VALUE, PROGRESS_VALUE, FIRST_SLOT + priority - 1]);
        let bits = level_as_real(self.some_level());
        self.plan_write(output, priority, bits);
        let readers = [true, false].map(|tenant| {
            let station = self.plan_read_by(tenant, output, property, When::Now);
            (tenant, station)
        });
        // By a station whose last frame is not to come again.
        let other = self.some_station();
        if readers.iter().all(|(_, station)| *station != other) || self.random.chance(30) {
            let bits = level_as_real(self.some_level());
            let body = match self.random.chance(50) {
                true => Body::Write { priority, bits },
                false => Body::Empty { priority },
            };
            self.plan_from(Some(other), output, Some(body), When::Now);
        } else if self.random.chance(50) {
            self.plan_clock(output, When::Whenever);
        }
        for (_, station) in readers {
            self.plan_from(Some(station), output, None, When::Now);
        }
        if is_hidden(property) || self.random.chance(50) {
            self.plan(output, Body::Empty { priority }, When::Now);
        }
    }

    /// Too late, or of a property that is not known.
    fn plan_reads_turned_down(&mut self, output: u8) {
        if self.random.chance(60) {
            // A hidden slot is read, and the panel is at the frame's time then.
            let hidden = self.some_hidden_slot();
            let later = self.random.between(2, 50);
            self.plan_read_by(true, output, hidden, When::After(later));
            self.plan_read_by(false, output, PRESENT_VALUE, When::Late);
        }
        for _ in 0..self.random.between(2, 4) {
            let tenant = self.random.chance(60);
            let shown = self
                .random
                .pick(&[PRESENT_VALUE, PROGRESS_VALUE, FIRST_SLOT]);
            let unknown = self.random.pick(self.suite.tables.unknown_properties);
            let to_come = self.random.between(0x1C, 0x1F) as u8;
            match self.random.below(4) {
                0 => self.plan_read_by(tenant, output, shown, When::Late),
                1 => self.plan_read_by(tenant, output, to_come, When::Now),
                _ => self.plan_read_by(tenant, output, unknown, When::Now),
            };
        }
    }

    /// Read as it was written, whoever reads.
    fn plan_other_level(&mut self, output: u8) {
        for _ in 0..self.random.between(1, 3) {
            let property = self.random.pick(&OTHER_LEVELS);
            let level = level_as_real(self.some_level());
            match property {
                MINIMUM => self.plan_property(output, MAXIMUM, REAL_HUNDRED_PERCENT),
                MAXIMUM => self.plan_property(output, MINIMUM, REAL_ONE_PERCENT),
                BINARY_INACTIVE_VALUE => {
                    self.plan_property(output, BINARY_ACTIVE_VALUE, REAL_HUNDRED_PERCENT)
                }
                BINARY_ACTIVE_VALUE => self.plan_property(output, BINARY_INACTIVE_VALUE, 0),
                _ => {}
            }
            self.plan_property(output, property, level);
            self.plan_read_by_both(output, property, When::Now);
            if property == BINARY_ACTIVE_VALUE {
                // Active at just this level.
                let own = self.plan_strongest_slot(output);
                self.plan_write(output, own, level);
                for property in [BINARY_PRESENT_VALUE, RELAY_STATE] {
                    self.plan_read_by_both(output, property, When::Now);
                }
            }
        }
        for property in [RAMP_RATE, STEP_INCREMENT] {
            if self.random.chance(30) {
                let value = values::usual_percentage(&mut self.random);
                self.plan_property(output, property, value);
                self.plan_read_by_both(output, property, When::Now);
            }
        }
        self.plan_whole_range(output);
    }

    fn plan_last_command_by_both(&mut self, output: u8) {
        let any = self.random.pick(&COMMANDS);
        let kind = self
            .random
            .pick(&[any, FADE_TO_OVER, RAMP_TO_AT_RATE, STEP_UP_BY]);
        let command = self.good_command(kind);
        self.plan(output, command, When::Now);
        for property in LAST_OPERATION..=LAST_DURATION {
            self.plan_read_by_both(output, property, When::Now);
        }
    }

    /// Lit for some seconds and a part of one.
    fn plan_burning_by_both(&mut self, output: u8) {
        let own = self.plan_strongest_slot(output);
        self.plan_write(output, own, REAL_HUNDRED_PERCENT);
        let later = self.random.between(1_000, 200_000);
        let property = ELAPSED_ACTIVE_TIME;
        self.plan_read_by_both(output, property, When::After(later));
    }

    /// A write or a command of a tenant, or of a service station; then both look
    /// at what it has done.
    fn plan_act_by_one(&mut self, output: u8) {
        let tenant = self.random.chance(60);
        let station = self.some_station_marked(tenant);
        let own = self.plan_strongest_slot(output);
        let level = level_as_real(self.some_level());
        let body = match self.random.below(12) {
            0..=3 => Body::Write {
                priority: own,
                bits: level,
            },
            4 => Body::Empty { priority: own },
            5 => Body::WriteProperty {
                property: RELINQUISH_DEFAULT,
                value: level,
            },
            6 => Body::Command {
                kind: GOTO,
                fields: vec![level, ABSENT],
            },
            7 => Body::Command {
                kind: FADE_TO_OVER,
                fields: vec![level, SHORTEST, ABSENT],
            },
            _ => {
                let kind = self.random.pick(&COMMANDS);
                self.good_command(kind)
            }
        };
        if matches!(body, Body::Command { .. }) {
            self.plan_command_priority(output, own, When::Now);
            self.plan_read_by_both(output, LIGHTING_COMMAND_PRIORITY, When::Now);
        }
        self.plan_from(Some(station), output, Some(body), When::Now);
        let when = self.random.pick(&[When::Now, When::Due]);
        for (property, when) in [
            (PROGRESS_VALUE, when),
            (PRESENT_VALUE, When::Now),
            (FIRST_SLOT + own - 1, When::Now),
        ] {
            self.plan_read_by_both(output, property, when);
        }
    }
}
