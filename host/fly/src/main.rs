//! `fosavalo`: flights flown, kept, checked, explained and flown again, by one program.

fn main() -> std::process::ExitCode {
    fly::commands::run(std::env::args_os().skip(1))
}
