//! Scenes: the last station and the one after it, and many stations in turn,
//! each with numbers of its own, whose frames come again.

use crate::list::Generator;
use crate::timing::When;

/// So many stations take turns at most.
const TURNS: u64 = 12;

impl Generator {
    /// The last station is heard, and so is its frame that comes again; the one
    /// after it is not.
    pub(crate) fn plan_edge_of_stations(&mut self, output: u8) {
        let stations = self.panel.parameters().stations as u8;
        for station in [stations - 1, stations, stations - 1, stations + 1] {
            let body = self.any_read();
            self.plan_from(Some(station), output, Some(body), When::Now);
            if self.random.chance(40) {
                self.plan_from(Some(station), output, None, When::Now);
            }
        }
    }

    /// All of them send, and then the frames of all come again.
    pub(crate) fn plan_turns_of_stations(&mut self, output: u8) {
        let stations = u64::from(self.panel.parameters().stations);
        let first = self.random.below(stations);
        let turns = stations.min(TURNS);
        let in_turn = (first..first + turns).map(|turn| (turn % stations) as u8);
        for station in in_turn.clone() {
            let body = self.any_body(output);
            self.plan_from(Some(station), output, Some(body), When::Now);
        }
        for station in in_turn {
            self.plan_from(Some(station), output, None, When::Now);
        }
    }
}
