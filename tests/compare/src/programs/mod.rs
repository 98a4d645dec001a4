//! What the proved programs print held against what the reference says.

mod tally;

pub use tally::Tally;

use crate::runs::described;
use generator::{damaged_image, image};
use std::io::Write;
use std::ops::Range;
use std::path::{Path, PathBuf};
use std::process::{Command, Stdio};

/// A program that reads an image from standard input, and what it must print.
struct Program {
    path: PathBuf,
    due: fn(&[u8]) -> String,
}

impl Program {
    /// A program of a folder; fails if it is missing.
    fn new(folder: &Path, name: &str, due: fn(&[u8]) -> String) -> Result<Program, String> {
        let path = folder.join(name);
        if path.is_file() {
            return Ok(Program { path, due });
        }
        Err(format!(
            "target/bin/{name} is missing: run tools/programs first"
        ))
    }

    /// What it prints for an image; fails if its status is not 0.
    fn printed(&self, image: &[u8]) -> Result<Vec<u8>, String> {
        let failed = |what: String| format!("{}: {what}", self.path.display());
        let mut child = Command::new(&self.path)
            .stdin(Stdio::piped())
            .stdout(Stdio::piped())
            .spawn()
            .map_err(|error| failed(error.to_string()))?;
        // The program may stop reading before all is written.
        let _ = child.stdin.take().expect("piped").write_all(image);
        let output = child.wait_with_output();
        let output = output.map_err(|error| failed(error.to_string()))?;
        match output.status.success() {
            true => Ok(output.stdout),
            false => Err(failed(output.status.to_string())),
        }
    }

    /// What it prints for an image, or how that differs from what it must.
    fn compared(&self, image: &[u8]) -> Result<String, String> {
        let (printed, due) = (self.printed(image)?, (self.due)(image));
        if printed == due.as_bytes() {
            return Ok(due);
        }
        let printed = String::from_utf8_lossy(&printed);
        let path = self.path.display();
        Err(format!(
            "{path} prints\n{printed}\nand the reference\n{due}"
        ))
    }
}

/// Texts that were compared so far.
pub struct Comparison {
    pub tally: Tally,
    seed: u64,
    programs: [Program; 2],
}

impl Comparison {
    /// Begins with the programs that were proved; fails if one is missing.
    pub fn new(seed: u64) -> Result<Comparison, String> {
        let folder = Path::new(env!("CARGO_MANIFEST_DIR")).join("../../target/bin");
        Comparison::of_folder(&folder, seed)
    }

    /// Begins with the programs of a folder; fails if one is missing.
    pub fn of_folder(folder: &Path, seed: u64) -> Result<Comparison, String> {
        let programs = [
            Program::new(folder, "run_image", reference::report::printed)?,
            Program::new(folder, "log_crossings", reference::printed_log)?,
        ];
        Ok(Comparison {
            tally: Tally::default(),
            seed,
            programs,
        })
    }

    /// Images of these indexes.
    pub fn generated(&mut self, indexes: Range<u64>) -> Result<(), String> {
        for index in indexes {
            self.image("image", index, &image(self.seed, index))?;
        }
        Ok(())
    }

    /// Damaged images of these indexes.
    pub fn damaged(&mut self, indexes: Range<u64>) -> Result<(), String> {
        for index in indexes {
            let bytes = damaged_image(self.seed, index);
            self.image("damaged image", index, &bytes)?;
        }
        Ok(())
    }

    /// Gives an image to both programs.
    fn image(&mut self, kind: &str, index: u64, bytes: &[u8]) -> Result<(), String> {
        for program in &self.programs {
            let text = program
                .compared(bytes)
                .map_err(|what| described(kind, index, bytes, &what))?;
            self.tally.add(&text);
        }
        Ok(())
    }
}

/// Compares all.
pub fn compare_programs(seed: u64, count: u64) -> Result<Tally, String> {
    let mut all = Comparison::new(seed)?;
    all.generated(0..count)?;
    all.damaged(0..count)?;
    Ok(all.tally)
}
