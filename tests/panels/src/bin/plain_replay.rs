//! Replays a list through the plain panel.

fn main() -> std::process::ExitCode {
    panels::replay::replay_standard_input::<panels::PlainPanel>()
}
