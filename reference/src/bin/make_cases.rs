//! Writes the script of test vectors to the path given as argument; with `--previews` before
//! it, the section of previews, which is stored beside it.

use std::process::ExitCode;

fn main() -> ExitCode {
    let words: Vec<_> = std::env::args_os().skip(1).collect();
    let (script, path) = match &words[..] {
        [path] => (reference::vectors::script(), path),
        [which, path] if which == "--previews" => (reference::vectors::previews(), path),
        _ => {
            eprintln!("usage: make_cases [--previews] <path>");
            return ExitCode::FAILURE;
        }
    };
    match std::fs::write(path, script.bytes()) {
        Ok(()) => ExitCode::SUCCESS,
        Err(error) => {
            eprintln!("{}: {error}", path.to_string_lossy());
            ExitCode::FAILURE
        }
    }
}
