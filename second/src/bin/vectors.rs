//! Writes OUTDIR/stdin and OUTDIR/stdout, the cases of the product's vectors program.

use std::path::Path;
use std::process::ExitCode;

fn main() -> ExitCode {
    let Some(folder) = std::env::args().nth(1) else {
        eprintln!("vectors: name the folder to write stdin and stdout to");
        return ExitCode::from(2);
    };
    match write(Path::new(&folder)) {
        Ok(()) => ExitCode::SUCCESS,
        Err(error) => {
            eprintln!("vectors: {folder}: {error}");
            ExitCode::FAILURE
        }
    }
}

fn write(folder: &Path) -> std::io::Result<()> {
    let (stdin, stdout) = second::vectors::both();
    std::fs::create_dir_all(folder)?;
    std::fs::write(folder.join("stdin"), &stdin)?;
    std::fs::write(folder.join("stdout"), &stdout)?;
    println!("{} bytes of operations, {} lines", stdin.len(), stdout.lines().count());
    Ok(())
}
