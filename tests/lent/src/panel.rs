//! The start, and the table of refusals, over lent tables: "checked in this
//! order".

use plain::frame;
use plain::{answer, Answer, Parameters};

use crate::living;
use crate::record::{Kept, Record, Station, LONGEST_FRAME};
use crate::rules;

/// "A record rule broken."
const TABLES: u8 = 1;

/// "17: a start with a parameter out of range; tested before 1, tables
/// unwritten." Then "exactly that many records" are asked for.
pub fn start(
    outputs: &mut [Record],
    stations: &mut [Station],
    kept: &mut Kept,
    set: Parameters,
) -> Answer {
    if set.out_of_range().is_some() {
        return Answer::Refused(answer::PARAMETER);
    }
    if !rules::counts_hold(outputs, stations, &set) {
        return Answer::Refused(TABLES);
    }
    let mut fresh = Record::fresh();
    fresh.fade = set.fresh_fade_time();
    outputs.fill(fresh);
    stations.fill(Station::fresh());
    *kept = Kept {
        time: 0,
        parameters: set,
    };
    Answer::Done
}

pub fn frame(
    outputs: &mut [Record],
    stations: &mut [Station],
    kept: &mut Kept,
    bytes: &[u8],
) -> Answer {
    if !rules::hold(outputs, stations, kept) {
        return Answer::Refused(TABLES);
    }
    let Kept { time, parameters } = kept;
    let Some(length) = bytes.first().and_then(|kind| frame::length_of_kind(*kind)) else {
        return Answer::Refused(answer::NO_BYTE_OR_UNKNOWN_KIND);
    };
    if bytes.len() != length {
        return Answer::Refused(answer::WRONG_LENGTH);
    }
    if bytes[0] == frame::CLOCK {
        return match move_to(outputs, time, frame::clock_time(bytes)) {
            true => Answer::Done,
            false => Answer::Refused(answer::TIME_BEFORE_PANEL_TIME),
        };
    }
    let station = usize::from(frame::station(bytes));
    let number = frame::number(bytes);
    if station >= parameters.stations as usize || number == 0 {
        return Answer::Refused(answer::STATION_OR_NUMBER);
    }
    let output = usize::from(frame::output(bytes));
    if output >= outputs.len() {
        return Answer::Refused(answer::OUTPUT_NOT_IN_TABLE);
    }
    let record = &stations[station];
    if number == record.number {
        return if frame_of(record) == bytes {
            record.answer
        } else {
            Answer::Refused(answer::LAST_NUMBER_OTHER_BYTES)
        };
    }
    if number < record.number {
        return Answer::Refused(answer::NUMBER_BELOW_LAST);
    }
    if !move_to(outputs, time, frame::time(bytes)) {
        return Answer::Refused(answer::TIME_BEFORE_PANEL_TIME);
    }
    let answer = living::act(&mut outputs[output], parameters, *time, bytes);
    let mut kept = [0; LONGEST_FRAME];
    kept[..bytes.len()].copy_from_slice(bytes);
    stations[station] = Station {
        answer,
        number,
        frame: kept,
    };
    answer
}

/// The frame that a record keeps: as many bytes as its kind has.
fn frame_of(station: &Station) -> &[u8] {
    &station.frame[..frame::length_of_kind(station.frame[0]).unwrap_or(0)]
}

/// Whether the moment is not before panel time; the panel is there then.
fn move_to(outputs: &mut [Record], time: &mut u64, to: u64) -> bool {
    if to < *time {
        return false;
    }
    for record in outputs {
        living::pass(record, *time, to);
    }
    *time = to;
    true
}
