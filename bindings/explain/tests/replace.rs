//! A file is replaced whole, or is as it was.

use std::fs::{self, Permissions};
use std::io::ErrorKind;
use std::os::unix::fs::{symlink, PermissionsExt};
use std::path::{Path, PathBuf};

use swarmbanner_explain::replace;

/// A new folder for a test.
fn room(name: &str) -> PathBuf {
    let room = Path::new(env!("CARGO_TARGET_TMPDIR")).join(format!("replace-{name}-{}", std::process::id()));
    fs::create_dir_all(&room).expect("a folder can be made");
    room
}

/// The names in a folder, in order.
fn names(room: &Path) -> Vec<String> {
    let entries = fs::read_dir(room).expect("the folder can be listed");
    let mut names: Vec<String> =
        entries.map(|entry| entry.expect("it can be listed").file_name().to_string_lossy().into_owned()).collect();
    names.sort();
    names
}

#[test]
fn a_file_is_made_and_replaced() {
    let room = room("made");
    let path = room.join("file");
    replace(&path, b"one").expect("it can be made");
    assert_eq!(fs::read(&path).expect("it is there"), b"one");
    fs::set_permissions(&path, Permissions::from_mode(0o640)).expect("it is ours");
    replace(&path, b"two, longer").expect("it can be replaced");
    assert_eq!(fs::read(&path).expect("it is there"), b"two, longer");
    assert_eq!(fs::metadata(&path).expect("it is there").permissions().mode() & 0o777, 0o640);
    replace(&path, b"").expect("it can be replaced");
    assert_eq!(fs::read(&path).expect("it is there"), b"");
    assert_eq!(names(&room), ["file"]);
    fs::remove_dir_all(&room).expect("it is ours");
}

#[test]
fn a_link_is_followed() {
    let room = room("link");
    fs::create_dir(room.join("far")).expect("a folder can be made");
    fs::write(room.join("far/file"), b"one").expect("it can be made");
    symlink("far/file", room.join("link")).expect("a link can be made");
    replace(&room.join("link"), b"two").expect("it can be replaced");
    assert_eq!(fs::read(room.join("far/file")).expect("it is there"), b"two");
    assert!(room.join("link").is_symlink(), "the link stays");
    assert_eq!((names(&room), names(&room.join("far"))), (vec!["far".into(), "link".into()], vec!["file".into()]));
    symlink("nowhere", room.join("lost")).expect("a link can be made");
    assert_eq!(replace(&room.join("lost"), b"two").map_err(|error| error.kind()), Err(ErrorKind::NotFound));
    assert!(!room.join("nowhere").exists() && room.join("lost").is_symlink());
    fs::remove_dir_all(&room).expect("it is ours");
}

#[test]
fn what_cannot_be_replaced_stays() {
    let room = room("kept");
    assert_eq!(replace(&room, b"one").map_err(|error| error.kind()), Err(ErrorKind::IsADirectory));
    let nowhere = replace(&room.join("nowhere/file"), b"one");
    assert_eq!(nowhere.map_err(|error| error.kind()), Err(ErrorKind::NotFound));
    let socket = room.join("socket");
    let _listener = std::os::unix::net::UnixListener::bind(&socket).expect("a socket can be made");
    let why = replace(&socket, b"one").expect_err("it is no file").to_string();
    assert_eq!(why, "it is there and is no file");
    assert_eq!(names(&room), ["socket"]);
    fs::remove_dir_all(&room).expect("it is ours");
}

/// The name of another file is not taken.
#[test]
fn names_that_are_taken() {
    let room = room("taken");
    let taken = format!(".swarmbanner-{}-0", std::process::id());
    fs::write(room.join(&taken), b"kept").expect("it can be made");
    replace(&room.join("file"), b"one").expect("it can be made");
    assert_eq!(names(&room), [&taken[..], "file"]);
    assert_eq!(fs::read(room.join(&taken)).expect("it is there"), b"kept");
    fs::remove_dir_all(&room).expect("it is ours");
}
