//! The example `convert_journal`, run on files: whatever happens, the file is the old journal or the new one.
use std::fs::{self, Permissions};
use std::os::unix::fs::{MetadataExt, PermissionsExt, chown, symlink};
use std::os::unix::process::ExitStatusExt;
use std::path::{Path, PathBuf};
use std::process::{Command, Output};

use selvaigo::{Mode, convert_journal, encode_record, hash, scan_journal};

mod worked;
use worked::{remove, three, three_in};

// A record with three bytes after its last item.
fn old_record() -> Vec<u8> {
    let taken = encode_record(&Mode::Unkeyed, 7, &remove(5)).unwrap().bytes().to_vec();
    let stated = [&51_u64.to_le_bytes(), &taken[40..], &[7, 8, 9]].concat();
    [&hash(&stated)[..], &stated].concat()
}

// The program, which `cargo test` builds too, but not where it is told to build one test alone.
fn program() -> PathBuf {
    let this = std::env::current_exe().unwrap();
    let program = this.parent().and_then(Path::parent).unwrap().join("examples/convert_journal");
    assert!(program.is_file(), "there is no {}: cargo build --example convert_journal", program.display());
    program
}

fn run(words: &[&Path]) -> Output {
    Command::new(program()).args(words).output().unwrap()
}

// The program in a shell that lets no file grow beyond a kilobyte, after other words of the shell's.
fn run_short_of_room(words: &str, path: &Path) -> Output {
    let text = format!("{words} ulimit -f 1; exec \"$0\" \"$1\"");
    Command::new("sh").arg("-c").arg(text).arg(program()).arg(path).output().unwrap()
}

// What the program says; it has nothing to say against the file.
fn says(words: &[&Path]) -> String {
    let out = run(words);
    assert_eq!((out.status.code(), String::from_utf8(out.stderr).unwrap().as_str()), (Some(0), ""));
    String::from_utf8(out.stdout).unwrap()
}

// What it says against it.
fn fails(out: &Output) -> String {
    assert_eq!(out.status.code(), Some(1));
    String::from_utf8(out.stderr.clone()).unwrap()
}

// A folder with a journal, and nothing else.
struct Folder(PathBuf);

impl Folder {
    fn new(name: &str, journal: &[u8]) -> Self {
        let folder = Path::new(env!("CARGO_TARGET_TMPDIR")).join("convert_file").join(name);
        _ = fs::remove_dir_all(&folder);
        fs::create_dir_all(&folder).unwrap();
        let this = Self(folder.canonicalize().unwrap());
        fs::write(this.journal(), journal).unwrap();
        this
    }

    fn journal(&self) -> PathBuf {
        self.0.join("journal")
    }

    fn beside(&self) -> PathBuf {
        self.0.join("journal.converting")
    }

    // The journal's bytes, where there is nothing beside it.
    fn alone(&self) -> Vec<u8> {
        assert_eq!(fs::read_dir(&self.0).unwrap().count(), 1);
        fs::read(self.journal()).unwrap()
    }

    // What changes when a file is written or replaced.
    fn state(&self) -> (u64, i64, i64, u64, u32) {
        let m = fs::metadata(self.journal()).unwrap();
        (m.ino(), m.mtime(), m.mtime_nsec(), m.len(), m.mode())
    }
}

#[test]
fn a_file_with_leftovers() {
    let [first, _, third] = three();
    let old = [&first[..], &old_record(), &third, &old_record()].concat();
    for mode in [0o640, 0o400, 0o666] {
        let folder = Folder::new("with_leftovers", &old);
        fs::set_permissions(folder.journal(), Permissions::from_mode(mode)).unwrap();
        let expected = "to be dropped: 3 from byte 192 on\nto be dropped: 3 from byte 371 on\nconverted: 374 bytes became 368, leftovers in 2 of 4 records\n\
                        records: 4, up to byte 368 (374 before), the journal's end (0)\n";
        assert_eq!(says(&[&folder.journal()]), expected);
        assert_eq!(folder.alone(), convert_journal(&old).journal);
        let state = folder.state();
        assert_eq!(state.4 & 0o7777, mode);
        // Another time there is nothing to do.
        let expected =
            "nothing to drop, left as it is: 368 bytes\nrecords: 4, up to byte 368 (368 before), the journal's end (0)\n";
        assert_eq!(says(&[&folder.journal()]), expected);
        assert_eq!(folder.state(), state);
    }
}

#[test]
fn a_file_of_another_owner() {
    let folder = Folder::new("owner", &old_record());
    // Only a privileged user can give it away.
    _ = chown(folder.journal(), Some(1), Some(2));
    let owner = || fs::metadata(folder.journal()).map(|m| (m.uid(), m.gid())).unwrap();
    let before = owner();
    says(&[&folder.journal()]);
    assert_eq!((owner(), folder.alone().len()), (before, 88));
}

#[test]
fn a_file_without_leftovers() {
    let whole = three().concat();
    let mut damaged = whole.clone();
    damaged[150] ^= 1;
    let keyed = three_in(&Mode::Keyed([7; 32])).concat();
    let cases: [(&[u8], &str); 5] = [
        (&whole, "295 bytes\nrecords: 3, up to byte 295 (295 before), the journal's end (0)\n"),
        (&whole[..200], "200 bytes\nrecords: 1, up to byte 104 (104 before), then one that is cut (16), the last 96 bytes\n"),
        (
            &damaged,
            "295 bytes\nrecords: 1, up to byte 104 (104 before), then one that is damaged, mismatch (18), the last 191 bytes\n",
        ),
        (&[], "0 bytes\nrecords: 0, up to byte 0 (0 before), the journal's end (0)\n"),
        (&keyed, "295 bytes\nrecords: 0, up to byte 0 (0 before), then one that is damaged, mismatch (18), the last 295 bytes\n"),
    ];
    for (journal, end) in cases {
        let folder = Folder::new("without_leftovers", journal);
        let state = folder.state();
        assert_eq!(says(&[&folder.journal()]), format!("nothing to drop, left as it is: {end}"));
        assert_eq!((folder.state(), folder.alone().as_slice()), (state, journal));
    }
}

#[test]
fn a_file_with_a_damaged_tail() {
    let mut wrong = three()[0].clone();
    wrong[0] ^= 1;
    let cut = &old_record()[..90];
    let cases: [(&[u8], &str); 2] = [
        (&wrong, "then one that is damaged, mismatch (18), the last 195 bytes"),
        (cut, "then one that is cut (16), the last 90 bytes"),
    ];
    for (tail, end) in cases {
        // Behind the wrong one an old record, which stays as it is.
        let tail = if tail == cut { cut.to_vec() } else { [tail, &old_record()].concat() };
        let old = [&old_record()[..], &tail].concat();
        let folder = Folder::new("damaged_tail", &old);
        let said = says(&[&folder.journal()]);
        let len = old.len();
        let expected = format!(
            "to be dropped: 3 from byte 88 on\nconverted: {len} bytes became {}, leftovers in 1 of 1 records\nrecords: 1, up to byte 88 (91 before), {end}\n",
            len - 3
        );
        assert_eq!(said, expected);
        assert_eq!(folder.alone()[88..], tail);
    }
}

#[test]
fn what_a_run_before_left() {
    let old = old_record();
    let folder = Folder::new("stale", &old);
    fs::write(folder.beside(), [9; 1_000]).unwrap();
    says(&[&folder.journal()]);
    assert_eq!(folder.alone(), convert_journal(&old).journal);

    // Even a link isn't written through.
    let folder = Folder::new("stale", &old);
    let other = Folder::new("other", &[9; 5]);
    symlink(other.journal(), folder.beside()).unwrap();
    says(&[&folder.journal()]);
    assert_eq!((folder.alone(), other.alone()), (convert_journal(&old).journal, vec![9; 5]));
    assert!(fs::symlink_metadata(folder.journal()).unwrap().is_file());
}

#[test]
fn a_link_to_the_file() {
    let old = old_record();
    let folder = Folder::new("linked", &old);
    let elsewhere = Folder::new("link", &[]);
    fs::remove_file(elsewhere.journal()).unwrap();
    symlink(folder.journal(), elsewhere.journal()).unwrap();
    says(&[&elsewhere.journal()]);
    assert_eq!((folder.alone(), fs::read_link(elsewhere.journal()).unwrap()), (convert_journal(&old).journal, folder.journal()));
}

#[test]
fn a_new_file_that_cannot_be_written() {
    let old = old_record();
    let folder = Folder::new("taken_name", &old);
    let state = folder.state();
    fs::create_dir(folder.beside()).unwrap();
    assert!(fails(&run(&[&folder.journal()])).contains("journal: left as it is, as "));
    assert_eq!((folder.state(), fs::read(folder.journal()).unwrap()), (state, old.clone()));
    assert!(folder.beside().is_dir());

    // A name so long that the one beside it is too long.
    let folder = Folder::new("long_name", &old);
    let long = folder.0.join("j".repeat(250));
    fs::rename(folder.journal(), &long).unwrap();
    assert!(fails(&run(&[&long])).contains(": left as it is, as "));
    assert_eq!(fs::read(&long).unwrap(), old);
}

#[test]
fn no_room_for_the_new_file() {
    // Some kilobytes, of which the limit lets only the first be written.
    let old = old_record().repeat(100);
    let folder = Folder::new("no_room", &old);
    let state = folder.state();
    let out = run_short_of_room("trap '' XFSZ;", &folder.journal());
    assert!(fails(&out).contains("journal: left as it is, as "));
    assert_eq!((folder.state(), folder.alone()), (state, old));
}

#[test]
fn a_crash_while_the_new_file_is_written() {
    let old = old_record().repeat(100);
    let folder = Folder::new("crash", &old);
    let state = folder.state();
    // The signal of the limit ends the program.
    let out = run_short_of_room("", &folder.journal());
    assert!(out.status.signal().is_some());
    assert_eq!((folder.state(), fs::read(folder.journal()).unwrap()), (state, old.clone()));
    let new = convert_journal(&old).journal;
    let part = fs::read(folder.beside()).unwrap();
    assert!(!part.is_empty() && part.len() < new.len() && new.starts_with(&part));
    // The next run takes the old journal once more.
    says(&[&folder.journal()]);
    assert_eq!(folder.alone(), new);
    assert_eq!(scan_journal(&Mode::Unkeyed, &new).records, 100);
}

#[test]
fn other_words_and_files() {
    let folder = Folder::new("words", &old_record());
    let state = folder.state();
    for words in [&[][..], &[folder.journal().as_path(), &folder.journal()]] {
        let out = run(words);
        assert_eq!((out.status.code(), out.stdout.len(), out.stderr), (Some(2), 0, b"convert_journal FILE\n".to_vec()));
    }
    assert!(fails(&run(&[&folder.0.join("none")])).contains("none: "));
    assert!(fails(&run(&[&folder.0])).ends_with(": not a file\n"));
    assert_eq!((folder.state(), folder.alone()), (state, old_record()));
}
