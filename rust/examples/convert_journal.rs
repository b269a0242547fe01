//! Rewrites a journal file of the time when bytes after a payload's last item were passed over, for the rule that refuses them (22).
//!
//!   cargo run --release --example convert_journal FILE
//!
//! Nothing else may use the file meanwhile: a record that is added to it then would be lost. The new journal is written beside the old one, to
//! FILE.converting, with the same owner and permissions, and synced; then it takes the old one's name, and the folder is synced. So after a crash FILE is
//! the old journal or the new one, whole, and FILE.converting, if it is there, is overwritten by the next run. Where nothing is to be dropped FILE isn't touched.
//!
//! A journal under a key is left as it is: its first record isn't one without a key, so it is said to be damaged, mismatch (18).
//!
//! Prints each stretch that is dropped, what became of the file, and where its records end: behind a record that is cut or damaged all is as it was. The
//! exit status is 0 where FILE is converted now or was before, 1 with an error on standard error, 2 for other words than one FILE.
use std::env;
use std::error::Error;
use std::ffi::OsString;
use std::fs::{self, File, OpenOptions};
use std::io::{self, ErrorKind, Read, Write};
use std::os::unix::fs::{MetadataExt, OpenOptionsExt, fchown};
use std::path::Path;
use std::process::ExitCode;

use selvaigo::{Converted, Dropped, Mode, Refusal, convert_journal, scan_journal};

fn main() -> ExitCode {
    let mut words = env::args_os().skip(1);
    let (Some(path), None) = (words.next(), words.next()) else {
        eprintln!("convert_journal FILE");
        return ExitCode::from(2);
    };
    match convert(Path::new(&path)) {
        Ok(()) => ExitCode::SUCCESS,
        Err(error) => {
            eprintln!("{}: {error}", path.display());
            ExitCode::FAILURE
        }
    }
}

fn convert(path: &Path) -> Result<(), Box<dyn Error>> {
    // What a link points to is converted, and the link stays.
    let path = fs::canonicalize(path)?;
    let mut file = File::open(&path)?;
    if !file.metadata()?.is_file() {
        return Err("not a file".into());
    }
    let mut old = Vec::new();
    file.read_to_end(&mut old)?;
    let new = convert_journal(&old);
    let mut out = io::stdout().lock();
    // Said before it is done, so that it is known whatever comes then.
    for Dropped { place, count } in &new.dropped {
        writeln!(out, "to be dropped: {count} from byte {place} on")?;
    }
    if !new.dropped.is_empty() {
        replace(&path, &file, &new.journal)?;
    }
    Ok(writeln!(out, "{}", summary(old.len(), &new))?)
}

// Puts the bytes in the place of a file, whole or not at all.
fn replace(path: &Path, old: &File, bytes: &[u8]) -> Result<(), String> {
    let mut beside = OsString::from(path);
    beside.push(".converting");
    let beside = Path::new(&beside);
    write_beside(beside, old, bytes).and_then(|()| fs::rename(beside, path)).map_err(|error| {
        _ = fs::remove_file(beside);
        format!("left as it is, as {} can't be written: {error}", beside.display())
    })?;
    let folder = path.parent().expect("a file is in a folder");
    let synced = File::open(folder).and_then(|folder| folder.sync_all());
    synced.map_err(|error| format!("converted, but after a crash it may be the old one, as its folder can't be synced: {error}"))
}

// The bytes in a file with the owner and the permissions of another, synced.
fn write_beside(beside: &Path, old: &File, bytes: &[u8]) -> io::Result<()> {
    // What a run before left goes; it is never written through, as it might be a link.
    match fs::remove_file(beside) {
        Err(error) if error.kind() != ErrorKind::NotFound => return Err(error),
        _ => {}
    }
    let mut new = OpenOptions::new().write(true).create_new(true).mode(0o600).open(beside)?;
    let (was, is) = (old.metadata()?, new.metadata()?);
    if (was.uid(), was.gid()) != (is.uid(), is.gid()) {
        fchown(&new, Some(was.uid()), Some(was.gid()))?;
    }
    new.set_permissions(was.permissions())?;
    new.write_all(bytes)?;
    new.sync_all()
}

fn summary(old_len: usize, new: &Converted) -> String {
    let scan = scan_journal(&Mode::Unkeyed, &new.journal);
    // All that is dropped stands before the place where the records end.
    let (len, before) = (new.journal.len(), scan.place + old_len - new.journal.len());
    let done = match new.dropped.len() {
        0 => format!("nothing to drop, left as it is: {len} bytes"),
        dropped => format!("converted: {old_len} bytes became {len}, leftovers in {dropped} of {} records", scan.records),
    };
    let end = match scan.refusal {
        None => "the journal's end (0)".into(),
        Some(Refusal::ShortRecord) => format!("then one that is cut (16), the last {} bytes", len - scan.place),
        Some(other) => format!("then one that is damaged, {other} ({}), the last {} bytes", other.number(), len - scan.place),
    };
    format!("{done}\nrecords: {}, up to byte {} ({before} before), {end}", scan.records, scan.place)
}
