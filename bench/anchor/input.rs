//! A bundle's bytes: those of a file, which the system maps into memory, or of standard input; and
//! the proofs of a folder behind them.
#![allow(unsafe_code)]
use std::borrow::Cow;
use std::ffi::{OsStr, c_int, c_void};
use std::fs::File;
use std::io::{ErrorKind, Read, Result};
use std::os::fd::AsRawFd;
use std::path::Path;

/// The bytes of the file, or of standard input.
pub fn read(file: Option<&OsStr>) -> Result<Cow<'static, [u8]>> {
    let mut bytes = Vec::new();
    match file {
        Some(name) => {
            let mut file = File::open(name)?;
            if let Some(bytes) = mapped(&file) {
                return Ok(Cow::Borrowed(bytes));
            }
            file.read_to_end(&mut bytes)?;
        }
        None => {
            std::io::stdin().read_to_end(&mut bytes)?;
        }
    }
    Ok(Cow::Owned(bytes))
}

/// The text with the folder's proofs behind it, each below a label line of its leaf.
pub fn with_proofs(mut bytes: Vec<u8>, folder: &Path, names: &[String]) -> Result<Vec<u8>> {
    for name in names {
        match File::open(folder.join(format!("{name}.lrat"))) {
            Ok(mut file) => {
                bytes.extend_from_slice(format!("\nl {name}\n").as_bytes());
                file.read_to_end(&mut bytes)?;
            }
            Err(error) if error.kind() == ErrorKind::NotFound => {}
            Err(error) => return Err(error),
        }
    }
    Ok(bytes)
}

unsafe extern "C" {
    fn mmap(
        place: *mut c_void,
        size: usize,
        access: c_int,
        kind: c_int,
        file: c_int,
        from: i64,
    ) -> *mut c_void;
    fn madvise(place: *mut c_void, size: usize, advice: c_int) -> c_int;
}

/// What Linux on x86-64 calls PROT_READ, MAP_PRIVATE and MADV_SEQUENTIAL.
const READ: c_int = 1;
const PRIVATE: c_int = 2;
const SEQUENTIAL: c_int = 2;

/// The file as the system maps it, for as long as the program runs. None where it can't be, as an
/// empty one or a pipe.
fn mapped(file: &File) -> Option<&'static [u8]> {
    let about = file.metadata().ok()?;
    let size = usize::try_from(about.len()).ok()?;
    if !about.is_file() || size == 0 {
        return None;
    }
    // SAFETY: the system finds the place, and nothing unmaps it. The bytes stay as they are if
    // nobody writes to the file or cuts it while the program runs: the bench doesn't.
    unsafe {
        let place = mmap(
            std::ptr::null_mut(),
            size,
            READ,
            PRIVATE,
            file.as_raw_fd(),
            0,
        );
        if place.addr() == usize::MAX {
            return None;
        }
        madvise(place, size, SEQUENTIAL);
        Some(std::slice::from_raw_parts(place.cast(), size))
    }
}
