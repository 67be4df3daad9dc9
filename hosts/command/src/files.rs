//! Files: read whole, and saved by writing aside and renaming, so that a file is always a whole one.

use crate::fail::{fail, outside, Fail, REFUSED};
use crate::settings;
use knellstone::{Settings, Trainer};
use std::fs::{self, File};
use std::io::{Read, Write};
use std::path::{Path, PathBuf};

/// The file beside another whose name has this added.
pub fn beside(path: &Path, added: &str) -> PathBuf {
    let mut name = path.as_os_str().to_owned();
    name.push(added);
    name.into()
}

pub fn read(path: &Path) -> Result<Vec<u8>, Fail> {
    let mut bytes = Vec::new();
    let read = if path.as_os_str() == "-" {
        std::io::stdin().read_to_end(&mut bytes)
    } else {
        File::open(path).and_then(|mut file| file.read_to_end(&mut bytes))
    };
    read.map(|_| bytes).map_err(|e| outside("read", path, e))
}

pub fn save(path: &Path, bytes: &[u8]) -> Result<(), Fail> {
    saved(path, bytes, true)
}

/// The same, with or without waiting until the disk has it: a kill leaves a whole file either way, a loss of power with it alone.
pub fn saved(path: &Path, bytes: &[u8], flush: bool) -> Result<(), Fail> {
    let aside = beside(path, ".new");
    let written = File::create(&aside).and_then(|mut file| {
        file.write_all(bytes)?;
        if flush {
            file.sync_data()
        } else {
            Ok(())
        }
    });
    written.map_err(|e| outside("write", &aside, e))?;
    fs::rename(&aside, path).map_err(|e| outside("write", path, e))
}

pub fn remove(path: &Path) -> Result<(), Fail> {
    match fs::remove_file(path) {
        Err(e) if e.kind() != std::io::ErrorKind::NotFound => Err(outside("remove", path, e)),
        _ => Ok(()),
    }
}

pub fn settings(path: &Path) -> Result<Settings, Fail> {
    let text = String::from_utf8(read(path)?).or_else(|_| fail(REFUSED, format!("{}: no text", path.display())))?;
    settings::read(&text).or_else(|wrong| {
        let lines: Vec<String> = wrong.iter().map(|w| format!("{}: {w}", path.display())).collect();
        fail(REFUSED, lines.join("\n"))
    })
}

pub fn trainer(path: &Path) -> Result<Trainer, Fail> {
    let bytes = read(path)?;
    Trainer::load(&bytes).or_else(|refusal| {
        let hint = match refusal.0 {
            6 => "; it is cut, or no record at all",
            7 => "; it is no record, or one of a later version of Knellstone",
            _ => "; its bytes were changed",
        };
        fail(REFUSED, format!("{}: {refusal}{hint}", path.display()))
    })
}

/// Counts, 8 bytes each.
pub fn counts(path: &Path, trainer: &Trainer) -> Result<Vec<u64>, Fail> {
    let bytes = read(path)?;
    let counts: Vec<u64> = bytes.chunks_exact(8).map(|b| u64::from_be_bytes(b.try_into().expect("8 bytes"))).collect();
    if bytes.len() % 8 != 0 || counts.len() != trainer.nodes() {
        let (n, nodes) = (bytes.len(), trainer.nodes());
        return fail(
            REFUSED,
            format!(
                "{}: {n} bytes, and 8 for each of {nodes} nodes are {}; these counts are of another tree",
                path.display(),
                8 * nodes
            ),
        );
    }
    match trainer.panel(&counts) {
        Ok(_) => Ok(counts),
        Err(refusal) => fail(REFUSED, format!("{}: {refusal}; these counts are of another tree", path.display())),
    }
}

#[cfg(test)]
mod tests {
    use super::*;

    #[test]
    fn saves_whole() {
        let folder = std::env::temp_dir().join(format!("knellstone-files-{}", std::process::id()));
        fs::create_dir_all(&folder).unwrap();
        let file = folder.join("a.record");
        save(&file, b"one").unwrap();
        save(&file, b"two, longer").unwrap();
        assert_eq!(read(&file).unwrap(), b"two, longer");
        assert!(!beside(&file, ".new").exists());
        assert_eq!(trainer(&file).unwrap_err().status, REFUSED);
        assert_eq!(read(&folder.join("none")).unwrap_err().status, 1);
        fs::remove_dir_all(&folder).unwrap();
    }
}
