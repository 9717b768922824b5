// A library that finds ids by names, as bench/peers/ has each in C, and its file in the folder for temporary files.
use crate::table::time;
use std::ffi::{c_char, c_int, c_void, CString};
use std::fs;
use std::path::PathBuf;

// As in bench/peers/peer.h.
#[repr(C)]
pub struct List {
    pub bytes: *const u8,
    pub length: usize,
    pub n: usize,
}

pub type Build = unsafe extern "C" fn(*const c_char, *const List) -> c_int;

#[repr(C)]
pub struct Peer {
    pub add: Option<Build>,
    pub insert: Build,
    pub open: unsafe extern "C" fn(*const c_char) -> *mut c_void,
    pub find: unsafe extern "C" fn(*mut c_void, *const u8, usize) -> i64,
    pub close: unsafe extern "C" fn(*mut c_void),
}

// The peer of a library that is installed: bench/run then sets the flag of its name.
#[macro_export]
macro_rules! peer {
    ($name:ident) => {{
        #[cfg($name)]
        {
            extern "C" {
                static $name: $crate::side::Peer;
            }
            // SAFETY: the C file of the peer defines it, and nobody writes to it.
            Some(unsafe { &$name })
        }
        #[cfg(not($name))]
        None::<&'static $crate::side::Peer>
    }};
}

// A library and its file. The file goes when the program ends.
pub struct Side {
    pub name: &'static str,
    pub peer: &'static Peer,
    pub file: PathBuf,
}

impl Side {
    fn path(&self) -> CString {
        CString::new(self.file.as_os_str().as_encoded_bytes()).expect("a path")
    }

    fn remove(&self) {
        match fs::remove_file(&self.file) {
            Err(error) if error.kind() != std::io::ErrorKind::NotFound => panic!("{}: {error}", self.file.display()),
            _ => (),
        }
    }

    // The time of a build for each name. The file of the build before is removed first, which does not count.
    pub fn build(&self, build: Build, list: &List) -> f64 {
        self.remove();
        let path = self.path();
        // SAFETY: the path ends with a zero byte, and the list's pointers are those of slices that outlive the call.
        time(list.n, || assert_eq!(unsafe { build(path.as_ptr(), list) }, 0, "{} builds", self.name))
    }

    pub fn open(&self) -> Opened<'_> {
        // SAFETY: the path ends with a zero byte.
        let db = unsafe { (self.peer.open)(self.path().as_ptr()) };
        assert!(!db.is_null(), "{} opens its file", self.name);
        Opened { side: self, db }
    }
}

impl Drop for Side {
    fn drop(&mut self) {
        self.remove();
    }
}

// A side's file, ready for questions.
pub struct Opened<'a> {
    side: &'a Side,
    db: *mut c_void,
}

impl Opened<'_> {
    pub fn ask(&self, questions: &Questions) {
        for (name, &answer) in questions.names.iter().zip(&questions.answers) {
            // SAFETY: the peer opened db, and the name is lent with its length.
            let found = unsafe { (self.side.peer.find)(self.db, name.as_ptr(), name.len()) };
            assert!(found == answer, "{}: {name} gives {found} in place of {answer}", self.side.name);
        }
    }
}

impl Drop for Opened<'_> {
    fn drop(&mut self) {
        // SAFETY: the peer opened db, and it is not asked again.
        unsafe { (self.side.peer.close)(self.db) };
    }
}

pub struct Questions<'a> {
    pub names: Vec<&'a str>,
    pub answers: Vec<i64>,
}
