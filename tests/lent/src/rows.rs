//! Rows of numbers in, answers and rows of numbers out: the text of the program
//! `lent_tables` (crates/lent_session says what each letter asks for).

use plain::Answer;

use crate::panel;
use crate::record::{row_of_set, set_of_row, Kept, Record, Station, NUMBERS};

/// One more than any panel has.
const OUTPUTS: usize = 65;
const STATIONS: usize = 33;

struct Tables {
    outputs: Vec<Record>,
    stations: Vec<Station>,
    kept: Kept,
    lent_outputs: usize,
    lent_stations: usize,
}

pub fn run(text: &str) -> String {
    let mut tables = Tables {
        outputs: vec![Record::fresh(); OUTPUTS],
        stations: vec![Station::fresh(); STATIONS],
        kept: Kept::at(0, 0),
        lent_outputs: 0,
        lent_stations: 0,
    };
    let mut written = String::new();
    // A row ends with its newline.
    for line in text.split_inclusive('\n') {
        if let Some(row) = line.strip_suffix('\n') {
            tables.take(row, &mut written);
        }
    }
    written
}

/// The numbers after a row's letter.
fn numbers(line: &str) -> Vec<u64> {
    line[1..]
        .split(|character: char| !character.is_ascii_digit())
        .filter(|digits| !digits.is_empty())
        .map(|digits| digits.parse().unwrap_or(u64::MAX))
        .take(NUMBERS)
        .collect()
}

pub fn row(letter: char, numbers: &[u64]) -> String {
    let mut row = letter.to_string();
    for number in numbers {
        row.push_str(&format!(" {number}"));
    }
    row.push('\n');
    row
}

impl Tables {
    fn take(&mut self, line: &str, written: &mut String) {
        let Some(letter @ ('t' | 'p' | 'o' | 's' | 'b' | 'f' | 'l')) = line.chars().next() else {
            return;
        };
        let read = numbers(line);
        let mut row = [0; NUMBERS];
        row[..read.len()].copy_from_slice(&read);
        let place = row[0].min(255) as usize;
        match letter {
            't' => {
                self.outputs.fill(Record::fresh());
                self.stations.fill(Station::fresh());
                self.lent_outputs = place;
                self.lent_stations = row[1].min(255) as usize;
                self.kept = Kept::at(row[2], place);
            }
            'p' => self.kept.parameters = set_of_row(&row),
            'o' => {
                if let Some(record) = self.outputs.get_mut(place) {
                    *record = Record::of_row(&row);
                }
            }
            's' => {
                if let Some(record) = self.stations.get_mut(place) {
                    *record = Station::of_row(&row);
                }
            }
            'b' => {
                let (outputs, stations, kept) = self.lent();
                let answer = panel::start(outputs, stations, kept, set_of_row(&row));
                written.push_str(&answer_line(answer));
            }
            'f' => {
                let bytes: Vec<u8> = read.iter().map(|byte| (*byte).min(255) as u8).collect();
                let (outputs, stations, kept) = self.lent();
                let answer = panel::frame(outputs, stations, kept, &bytes);
                written.push_str(&answer_line(answer));
            }
            _ => self.put_left(written),
        }
    }

    fn lent(&mut self) -> (&mut [Record], &mut [Station], &mut Kept) {
        (
            &mut self.outputs[..self.lent_outputs.min(OUTPUTS)],
            &mut self.stations[..self.lent_stations.min(STATIONS)],
            &mut self.kept,
        )
    }

    fn put_left(&self, written: &mut String) {
        let counts = [self.lent_outputs as u64, self.lent_stations as u64];
        written.push_str(&row('t', &[counts[0], counts[1], self.kept.time]));
        written.push_str(&row('p', &row_of_set(&self.kept.parameters)));
        for (place, record) in self.outputs.iter().enumerate().take(self.lent_outputs) {
            if *record != Record::fresh() {
                written.push_str(&row('o', &record.row(place)));
            }
        }
        for (place, record) in self.stations.iter().enumerate().take(self.lent_stations) {
            if *record != Station::fresh() {
                written.push_str(&row('s', &record.row(place)));
            }
        }
    }
}

fn answer_line(answer: Answer) -> String {
    match answer {
        Answer::Done => "Done\n".into(),
        Answer::Value(value) => format!("Value {value:08X}\n"),
        Answer::Absent => "Absent\n".into(),
        Answer::Refused(number) => format!("Refused {number}\n"),
    }
}
