//! The two operations: the start, and the next frame.

use crate::answer::{Answer, Refusal};
use crate::frame::{check_kind_and_length, clock_time, Head, CLOCK};
use crate::output::Output;
use crate::parameters::{PanelRecord, Parameters};
use crate::rules::all_rules_hold;
use crate::station::Station;

/// Makes every lent record fresh, sets the time to 0 and keeps the set. What is
/// refused leaves all as it was.
pub fn start(
    outputs: &mut [Output],
    stations: &mut [Station],
    kept: &mut PanelRecord,
    parameters: Parameters,
) -> Answer {
    if !parameters.are_in_range() {
        return Refusal::Parameters.into();
    }
    if !parameters.fit(outputs, stations) {
        return Refusal::Records.into();
    }
    outputs.fill(Output::fresh(&parameters));
    stations.fill(Station::FRESH);
    kept.time = 0;
    kept.parameters = parameters;
    Answer::Done
}

/// Takes one frame. With `CHECK` the rules of every record are checked first,
/// as the paper's table demands; without it the caller vouches for them.
pub fn frame<const CHECK: bool>(
    outputs: &mut [Output],
    stations: &mut [Station],
    kept: &mut PanelRecord,
    bytes: &[u8],
) -> Answer {
    if CHECK && !all_rules_hold(outputs, stations, kept) {
        return Refusal::Records.into();
    }
    let PanelRecord { time, parameters } = kept;
    take(outputs, stations, time, parameters, bytes).unwrap_or_else(Answer::Refused)
}

fn take(
    outputs: &mut [Output],
    stations: &mut [Station],
    time: &mut u64,
    parameters: &Parameters,
    bytes: &[u8],
) -> Result<Answer, Refusal> {
    let kind = check_kind_and_length(bytes)?;
    if kind == CLOCK {
        advance(outputs, time, clock_time(bytes))?;
        return Ok(Answer::Done);
    }

    let head = Head::of(bytes);
    if head.number == 0 {
        return Err(Refusal::StationOrNumber);
    }
    // There are as many records as stations.
    let station = stations
        .get_mut(usize::from(head.station))
        .ok_or(Refusal::StationOrNumber)?;
    let output = usize::from(head.output);
    if output >= outputs.len() {
        return Err(Refusal::Output);
    }
    if head.number == station.number {
        return if station.has_frame(bytes) {
            Ok(station.answer)
        } else {
            Err(Refusal::NumberTaken)
        };
    }
    if head.number < station.number {
        return Err(Refusal::NumberPassed);
    }
    advance(outputs, time, head.time)?;
    let answer = outputs[output]
        .act(parameters, head.time, kind, bytes)
        .unwrap_or_else(Answer::Refused);
    station.keep(head.number, bytes, answer);
    Ok(answer)
}

fn advance(outputs: &mut [Output], time: &mut u64, to: u64) -> Result<(), Refusal> {
    if to < *time {
        return Err(Refusal::Late);
    }
    if to > *time {
        for output in outputs {
            output.advance(*time, to);
        }
        *time = to;
    }
    Ok(())
}
