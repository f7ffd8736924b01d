use std::process::ExitCode;

fn main() -> ExitCode {
    // A stand-in may be handed names that are no text; it looks at them itself.
    let words = std::env::args_os().map(|word| word.to_string_lossy().into_owned());
    second::second(&words.collect::<Vec<String>>())
}
