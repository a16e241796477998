//! Results written whole or not at all.
use crate::fault::{trouble, Fault, Result};
use crate::files::reason;
use std::fs::{self, File, Metadata};
use std::io::{self, ErrorKind, Write};
use std::path::{Path, PathBuf};

/// The results of a command. Nothing is to be seen of any file before every byte of all is written:
/// each goes to a new file in the folder of its own, standard output is written, and then the new
/// files take their names.
#[derive(Default)]
pub struct Results {
    texts: Vec<(String, Vec<u8>)>,
}

impl Results {
    pub fn new() -> Results {
        Results::default()
    }

    /// The one result of a command; without a name it goes to standard output.
    pub fn write(name: Option<&str>, text: impl Into<Vec<u8>>) -> Result<()> {
        let mut results = Results::new();
        results.add(name.unwrap_or("-"), text);
        results.finish()
    }

    pub fn add(&mut self, name: &str, text: impl Into<Vec<u8>>) {
        self.texts.push((name.to_string(), text.into()));
    }

    pub fn finish(self) -> Result<()> {
        let (outputs, files): (Vec<_>, Vec<_>) =
            self.texts.iter().partition(|(name, _)| name == "-");
        if outputs.len() > 1 {
            return trouble("standard output: two results for one file");
        }
        let mut pending: Vec<Pending> = Vec::new();
        for (name, text) in files {
            let file = meant(name)?;
            if pending.iter().any(|other| other.file == file) {
                return trouble(format!("{name}: two results for one file"));
            }
            let written = Pending::write(file, pending.len(), text);
            pending.push(written.map_err(|reason| Fault::Trouble(format!("{name}: {reason}")))?);
        }
        for (_, text) in outputs {
            put(text)?;
        }
        pending.into_iter().try_for_each(Pending::finish)
    }
}

/// Writes to standard output. That nobody reads it any more is no fault.
fn put(text: &[u8]) -> Result<()> {
    let mut output = io::stdout().lock();
    match output.write_all(text).and_then(|()| output.flush()) {
        Err(error) if error.kind() == ErrorKind::BrokenPipe => Ok(()),
        Err(error) => trouble(format!("standard output: {}", reason(&error))),
        Ok(()) => Ok(()),
    }
}

/// The file that a name means, by one path whatever the name. A link stays, and what it names is
/// replaced.
fn meant(name: &str) -> Result<PathBuf> {
    let path = Path::new(name);
    if let Ok(found) = fs::canonicalize(path) {
        return Ok(found);
    }
    if path.is_symlink() {
        return trouble(format!("{name}: a link to a file that is not there"));
    }
    let new = || {
        let folder = fs::canonicalize(Path::new(".").join(path.parent()?)).ok()?;
        // Where the name ends with a slash it is a folder that is missing.
        let file = path.file_name().filter(|_| !name.ends_with('/'))?;
        Some(folder.join(file))
    };
    Ok(new().unwrap_or_else(|| path.to_path_buf()))
}

/// A result that is written and does not have its name yet; forgotten, it leaves nothing behind.
struct Pending {
    file: PathBuf,
    /// Where the bytes stand; none where they went straight to the file.
    new: Option<PathBuf>,
}

impl Pending {
    fn write(file: PathBuf, number: usize, text: &[u8]) -> std::result::Result<Pending, String> {
        let before = fs::metadata(&file).ok();
        let is_other = |before: &Metadata| !before.is_file();
        let is_kept = |before: &Metadata| before.permissions().readonly();
        let mut pending = Pending { file, new: None };
        let done = match before {
            // A device or a pipe takes its bytes as they come; a folder refuses them.
            Some(before) if is_other(&before) => {
                File::create(&pending.file).and_then(|mut file| file.write_all(text))
            }
            Some(before) if is_kept(&before) => return Err("the file is write-protected".into()),
            before => pending.write_beside(number, before, text),
        };
        match done {
            Ok(()) => Ok(pending),
            Err(error) => Err(reason(&error)),
        }
    }

    fn write_beside(
        &mut self,
        number: usize,
        before: Option<Metadata>,
        text: &[u8],
    ) -> io::Result<()> {
        let called = format!("zohmirka-{}-{number}.new", std::process::id());
        let path = self.file.with_file_name(called);
        let mut new = File::create_new(&path)?;
        self.new = Some(path);
        if let Some(before) = before {
            new.set_permissions(before.permissions())?;
        }
        new.write_all(text)?;
        new.sync_all()
    }

    fn finish(mut self) -> Result<()> {
        if let Some(new) = &self.new {
            if let Err(error) = fs::rename(new, &self.file) {
                let name = self.file.display().to_string();
                return trouble(format!("{name}: {}", reason(&error)));
            }
        }
        self.new = None;
        Ok(())
    }
}

impl Drop for Pending {
    fn drop(&mut self) {
        if let Some(new) = &self.new {
            let _ = fs::remove_file(new);
        }
    }
}

#[cfg(test)]
mod tests {
    use super::*;
    use std::os::unix::fs::{symlink, PermissionsExt};
    use std::os::unix::net::UnixListener;

    /// A folder of its own for a test, with nothing in it.
    fn folder(test: &str) -> PathBuf {
        let folder = std::env::temp_dir().join(format!("zohmirka-{test}-{}", std::process::id()));
        let _ = fs::remove_dir_all(&folder);
        fs::create_dir_all(&folder).unwrap();
        folder
    }

    fn names(folder: &Path) -> Vec<String> {
        let entries = fs::read_dir(folder).unwrap();
        let name =
            |entry: io::Result<fs::DirEntry>| entry.unwrap().file_name().into_string().unwrap();
        let mut names: Vec<String> = entries.map(name).collect();
        names.sort();
        names
    }

    /// What is said of results for these files, each with its number for a text.
    fn fault(files: &[&Path]) -> String {
        let mut results = Results::new();
        for (number, file) in files.iter().enumerate() {
            results.add(file.to_str().unwrap(), number.to_string());
        }
        results.finish().unwrap_err().text().to_string()
    }

    #[test]
    fn nothing_is_left_where_one_result_cannot_be_written() {
        let folder = folder("nothing");
        let (good, bad) = (folder.join("good"), folder.join("none/bad"));
        fs::write(&good, "before").unwrap();
        let expected = format!("{}: no such file or directory", bad.display());
        assert_eq!(fault(&[&good, &bad]), expected);
        assert_eq!(fault(&[&bad, &good]), expected);
        assert_eq!(
            (fs::read(&good).unwrap(), names(&folder)),
            (b"before".to_vec(), vec!["good".into()])
        );
        fs::remove_dir_all(folder).unwrap();
    }

    #[test]
    fn a_result_replaces_what_a_link_names_and_keeps_its_mode() {
        let folder = folder("link");
        let (file, link) = (folder.join("file"), folder.join("link"));
        fs::write(&file, "before").unwrap();
        fs::set_permissions(&file, fs::Permissions::from_mode(0o640)).unwrap();
        symlink(&file, &link).unwrap();
        Results::write(link.to_str(), "after").unwrap();
        assert_eq!(fs::read(&file).unwrap(), b"after");
        assert_eq!(
            fs::metadata(&file).unwrap().permissions().mode() & 0o777,
            0o640
        );
        assert!(link.is_symlink());
        assert_eq!(names(&folder), ["file", "link"]);
        fs::remove_dir_all(folder).unwrap();
    }

    #[test]
    fn links_to_nothing_and_protected_files_stay() {
        let folder = folder("stay");
        let (file, link) = (folder.join("file"), folder.join("link"));
        fs::write(&file, "before").unwrap();
        fs::set_permissions(&file, fs::Permissions::from_mode(0o444)).unwrap();
        symlink(folder.join("none"), &link).unwrap();
        assert_eq!(
            fault(&[&file]),
            format!("{}: the file is write-protected", file.display())
        );
        assert_eq!(
            fault(&[&link]),
            format!("{}: a link to a file that is not there", link.display())
        );
        assert_eq!(
            (fs::read(&file).unwrap(), names(&folder)),
            (b"before".to_vec(), vec!["file".into(), "link".into()])
        );
        fs::remove_dir_all(folder).unwrap();
    }

    #[test]
    fn one_file_by_two_names_is_one_file() {
        let folder = folder("names");
        fs::create_dir(folder.join("sub")).unwrap();
        let (one, other) = (folder.join("new"), folder.join("sub/../new"));
        let expected = format!("{}: two results for one file", other.display());
        assert_eq!(fault(&[&one, &other]), expected);
        assert_eq!(names(&folder), ["sub"]);
        fs::write(&one, "before").unwrap();
        assert_eq!(fault(&[&one, &other]), expected);
        assert_eq!(
            (fs::read(&one).unwrap(), names(&folder)),
            (b"before".to_vec(), vec!["new".into(), "sub".into()])
        );
        let output = Path::new("-");
        assert_eq!(
            fault(&[output, output]),
            "standard output: two results for one file"
        );
        fs::remove_dir_all(folder).unwrap();
    }

    #[test]
    fn what_is_no_file_is_written_straight() {
        let folder = folder("straight");
        assert_eq!(
            fault(&[&folder]),
            format!("{}: is a directory", folder.display())
        );
        // Opened as a file a socket refuses, and it is still there.
        let socket = folder.join("socket");
        let _listener = UnixListener::bind(&socket).unwrap();
        assert_eq!(
            fault(&[&socket]),
            format!("{}: no such device or address", socket.display())
        );
        assert_eq!(names(&folder), ["socket"]);
        assert!(!fs::metadata(&socket).unwrap().is_file());
        fs::remove_dir_all(folder).unwrap();
    }
}
