//! Replays a list through the fast panel.

fn main() -> std::process::ExitCode {
    panels::replay::replay_standard_input::<panels::FastPanel>()
}
