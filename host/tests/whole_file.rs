//! Files are written whole or not at all, and what they replace is respected.

mod folder;

use folder::Folder;
use sporeferry::whole_file::{write_whole, Place};
use std::fs::{self, Permissions};
use std::io;
use std::os::unix::fs::{chown, symlink, MetadataExt, PermissionsExt};
use std::path::Path;

fn write(path: &Path, bytes: &[u8], force: bool) -> io::Result<()> {
    write_whole(&[(&Place::new(path, force)?, bytes)])
}

#[test]
fn a_file_is_written_and_replaced() {
    let folder = Folder::new("replaced");
    let path = folder.0.join("a.mesh");
    for bytes in [&b"first"[..], b"", b"second"] {
        write(&path, bytes, false).unwrap();
        assert_eq!(fs::read(&path).unwrap(), bytes);
        assert_eq!(folder.names(), ["a.mesh"]);
    }
}

#[test]
fn nothing_is_left_where_no_file_can_be() {
    let folder = Folder::new("refused");
    assert!(write(&folder.0, b"x", true).is_err());
    assert!(write(&folder.0.join("missing/a.mesh"), b"x", true).is_err());
    assert!(write(&folder.0.join(".."), b"x", true).is_err());
    assert!(write(Path::new("/dev/null"), b"x", true).is_err());
    assert!(folder.names().is_empty());
}

#[test]
fn a_read_only_file_is_replaced_only_by_force_and_keeps_its_mode() {
    let folder = Folder::new("read-only");
    let path = folder.0.join("a.mesh");
    for mode in [0o444, 0o400, 0o640, 0o666] {
        fs::write(&path, b"old").unwrap();
        fs::set_permissions(&path, Permissions::from_mode(mode)).unwrap();
        let owner = fs::metadata(&path).unwrap().uid();
        let unforced = write(&path, b"new", false);
        assert_eq!(unforced.is_ok(), mode & 0o222 != 0, "{mode:o}");
        write(&path, b"forced", true).unwrap();
        let found = fs::metadata(&path).unwrap();
        assert_eq!((found.mode() & 0o777, found.uid()), (mode, owner));
        assert_eq!(fs::read(&path).unwrap(), b"forced");
        fs::remove_file(&path).unwrap();
    }
}

/// Only root can give a file away, and so only root has one of another owner to replace.
#[test]
fn a_file_of_another_owner_stays_theirs() {
    let folder = Folder::new("owner");
    let path = folder.0.join("a.mesh");
    fs::write(&path, b"old").unwrap();
    let (owner, group) = match chown(&path, Some(12_345), Some(54_321)) {
        Ok(()) => (12_345, 54_321),
        Err(_) => fs::metadata(&path).map(|own| (own.uid(), own.gid())).unwrap(),
    };
    write(&path, b"new", false).unwrap();
    let found = fs::metadata(&path).unwrap();
    assert_eq!((found.uid(), found.gid()), (owner, group));
    assert_eq!(fs::read(&path).unwrap(), b"new");
}

#[test]
fn links_are_followed_and_dangling_ones_refused() {
    let folder = Folder::new("links");
    let [file, link, dangling] = ["a.mesh", "link", "dangling"].map(|name| folder.0.join(name));
    fs::write(&file, b"old").unwrap();
    symlink(&file, &link).unwrap();
    symlink(folder.0.join("not there"), &dangling).unwrap();
    write(&link, b"new", false).unwrap();
    assert!(link.is_symlink());
    assert_eq!(fs::read(&file).unwrap(), b"new");
    for force in [false, true] {
        let error = write(&dangling, b"new", force).unwrap_err();
        assert!(error.to_string().contains("a link to a file that is not there"));
    }
    assert_eq!(folder.names(), ["a.mesh", "dangling", "link"]);
}

#[test]
fn a_file_is_known_under_its_other_names() {
    let folder = Folder::new("names");
    let [file, hard, link] = ["a.stl", "hard", "link"].map(|name| folder.0.join(name));
    fs::write(&file, b"part").unwrap();
    fs::hard_link(&file, &hard).unwrap();
    symlink(&file, &link).unwrap();
    for name in [&file, &hard, &link] {
        assert!(Place::new(name, false).unwrap().holds(&file));
    }
    assert!(!Place::new(&folder.0.join("new"), false).unwrap().holds(&file));
}
