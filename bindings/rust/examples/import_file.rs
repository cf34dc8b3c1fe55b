//! Imports a file of lines of JSON, of any size, into a file of stored documents, by a file with a
//! schema's JSON:
//!
//! ```text
//! cargo run --release --example import_file -- FILE SCHEMA OUT
//! ```
//!
//! Each line that is refused is reported on standard error, as `FILE:3: field 1: a value is of another
//! kind than the field's`. The program ends with 1 where a line was refused, and with 2 where a
//! file or the schema can't be used; what was imported before that is in the output then. It takes
//! the memory of a chunk of lines, and of the longest line.

use kormaglen::Schema;
use std::env;
use std::error::Error;
use std::ffi::OsString;
use std::fs::{self, File};
use std::io::Write;
use std::path::Path;
use std::process::ExitCode;

fn main() -> ExitCode {
    let arguments: Vec<OsString> = env::args_os().skip(1).collect();
    let imported = match &arguments[..] {
        [file, schema, out] => import(Path::new(file), Path::new(schema), Path::new(out)),
        _ => Err("usage: import_file FILE SCHEMA OUT".into()),
    };
    match imported {
        Ok(Counts { lines, refused }) => {
            println!("{lines} lines, {refused} refused");
            ExitCode::from(u8::from(refused > 0))
        }
        Err(error) => {
            eprintln!("{error}");
            ExitCode::from(2)
        }
    }
}

#[derive(Default)]
struct Counts {
    lines: u64,
    refused: u64,
}

fn import(file: &Path, schema: &Path, out: &Path) -> Result<Counts, Box<dyn Error>> {
    let json = fs::read(schema).map_err(|error| said_of(schema, &error))?;
    let mut opened = Schema::open(&json).map_err(|refusal| said_of(schema, &refusal))?;
    let lines = File::open(file).map_err(|error| said_of(file, &error))?;
    let mut block = File::create(out).map_err(|error| said_of(out, &error))?;
    let mut counts = Counts::default();
    for imported in opened.import_reader(lines) {
        let imported = imported.map_err(|error| said_of(file, &error))?;
        block.write_all(&imported.block).map_err(|error| said_of(out, &error))?;
        for line in imported.lines {
            counts.lines += 1;
            if let Err(refusal) = line {
                counts.refused += 1;
                eprintln!("{}:{}: {refusal}", file.display(), counts.lines);
            }
        }
    }
    Ok(counts)
}

fn said_of(path: &Path, error: &dyn Error) -> String {
    format!("{}: {error}", path.display())
}
