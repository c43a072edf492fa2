//! Pictures as files: the DOT, and an SVG beside it.

use std::ffi::OsStr;
use std::fs;
use std::io;
use std::os::unix::ffi::OsStrExt;
use std::path::{Path, PathBuf};
use std::process;

use swarmbanner_explain::command::{reason, Command};

use crate::picture::Picture;

/// Laying out more arrows takes minutes and shows nothing.
const ARROWS_MOST: usize = 1500;

/// Why a picture is not there. It has names of files in it, which are bytes of any kind.
pub type Complaint = Vec<u8>;

fn about(path: &Path, why: &str) -> Complaint {
    [path.as_os_str().as_bytes(), b" cannot be written: ", why.as_bytes()].concat()
}

/// Writes a picture to a folder, which is made where it is not there, under a name without ending, and an SVG beside it. Says the
/// names of both.
///
/// # Errors
///
/// Fails with the system's reason where one of them cannot be written.
pub fn save(command: &Command, folder: &Path, name: &OsStr, picture: &Picture) -> Result<(), Complaint> {
    fs::create_dir_all(folder).map_err(|error| about(folder, &reason(&error)))?;
    let mut file = name.to_os_string();
    file.push(".dot");
    let path = folder.join(file);
    fs::write(&path, &picture.dot).map_err(|error| about(&path, &reason(&error)))?;
    command.say(path.as_os_str().as_bytes());
    render(command, picture, &path)
}

/// An SVG beside the DOT, where Graphviz is installed. A name that begins with a dash is no option of dot's, as it has a folder.
fn render(command: &Command, picture: &Picture, dot: &Path) -> Result<(), Complaint> {
    let svg: PathBuf = dot.with_extension("svg");
    let none = |why: &str| {
        command.complain_of(&[why.as_bytes(), b", so there is no ", svg.as_os_str().as_bytes()]);
        Ok(())
    };
    if picture.arrows > ARROWS_MOST {
        return none(&format!("{} arrows are too many for a picture", picture.arrows));
    }
    match process::Command::new("dot").arg("-Tsvg").arg("-o").arg(&svg).arg(dot).status() {
        Ok(status) if status.success() => command.say(svg.as_os_str().as_bytes()),
        Ok(status) => return Err(about(&svg, &format!("dot ended with {status}"))),
        Err(error) if error.kind() == io::ErrorKind::NotFound => return none("dot (Graphviz) is not installed"),
        Err(error) => return Err(about(&svg, &format!("dot: {}", reason(&error)))),
    }
    Ok(())
}
