//! LMDB through its C interface: one database with integer keys, and its
//! defaults else, so that each commit is synced.

use crate::{Quote, Quotes};
use std::ffi::{c_char, c_int, c_uint, c_void, CStr, CString};
use std::ptr::{null, null_mut};

/// A key or a value: LMDB's `MDB_val`.
#[repr(C)]
struct Bytes {
    size: usize,
    data: *mut c_void,
}

/// The part of `lmdb.h` that is used here.
mod interface {
    use super::*;

    #[link(name = "lmdb")]
    extern "C" {
        pub fn mdb_version(
            major: *mut c_int,
            minor: *mut c_int,
            patch: *mut c_int,
        ) -> *const c_char;
        pub fn mdb_strerror(answer: c_int) -> *const c_char;
        pub fn mdb_env_create(environment: *mut *mut c_void) -> c_int;
        pub fn mdb_env_open(
            environment: *mut c_void,
            path: *const c_char,
            flags: c_uint,
            mode: c_uint,
        ) -> c_int;
        pub fn mdb_env_close(environment: *mut c_void);
        pub fn mdb_txn_begin(
            environment: *mut c_void,
            parent: *mut c_void,
            flags: c_uint,
            transaction: *mut *mut c_void,
        ) -> c_int;
        pub fn mdb_txn_commit(transaction: *mut c_void) -> c_int;
        pub fn mdb_txn_abort(transaction: *mut c_void);
        pub fn mdb_txn_reset(transaction: *mut c_void);
        pub fn mdb_txn_renew(transaction: *mut c_void) -> c_int;
        pub fn mdb_dbi_open(
            transaction: *mut c_void,
            name: *const c_char,
            flags: c_uint,
            database: *mut c_uint,
        ) -> c_int;
        pub fn mdb_put(
            transaction: *mut c_void,
            database: c_uint,
            key: *mut Bytes,
            value: *mut Bytes,
            flags: c_uint,
        ) -> c_int;
        pub fn mdb_get(
            transaction: *mut c_void,
            database: c_uint,
            key: *mut Bytes,
            value: *mut Bytes,
        ) -> c_int;
    }
}

use interface::*;

/// The path is a file, not a folder.
const NO_FOLDER: c_uint = 0x4000;
const READ_ONLY: c_uint = 0x2_0000;
const INTEGER_KEY: c_uint = 0x08;
const NOT_FOUND: c_int = -30798;

pub struct Lmdb {
    environment: *mut c_void,
    database: c_uint,
    /// Kept for lookups, and renewed for each: so LMDB's text advises.
    reader: *mut c_void,
}

pub fn version() -> String {
    // Sound: LMDB's version is a C string that lives as long as the program.
    let (mut major, mut minor, mut patch) = (0, 0, 0);
    unsafe { mdb_version(&mut major, &mut minor, &mut patch) };
    format!("{major}.{minor}.{patch}")
}

fn good(answer: c_int) {
    if answer != 0 {
        // Sound: LMDB answers with a C string that stays.
        let why = unsafe { CStr::from_ptr(mdb_strerror(answer)) };
        panic!("LMDB answers {answer}: {}", why.to_string_lossy());
    }
}

fn lent(bytes: &mut [u8; 8]) -> Bytes {
    Bytes {
        size: 8,
        data: bytes.as_mut_ptr() as *mut c_void,
    }
}

// Sound, all below: the environment lives until `drop`; a write transaction ends
// in the call that begins it; keys and values are lent for one call, and a value
// that LMDB lends is copied before the reader is reset.
impl Lmdb {
    pub fn new(file: &str, quotes: &[Quote]) -> Lmdb {
        let mut lmdb = Lmdb {
            environment: null_mut(),
            database: 0,
            reader: null_mut(),
        };
        let file = CString::new(file).expect("a path has no zero byte");
        unsafe {
            good(mdb_env_create(&mut lmdb.environment));
            good(mdb_env_open(
                lmdb.environment,
                file.as_ptr(),
                NO_FOLDER,
                0o600,
            ));
            let mut first = null_mut();
            good(mdb_txn_begin(lmdb.environment, null_mut(), 0, &mut first));
            good(mdb_dbi_open(first, null(), INTEGER_KEY, &mut lmdb.database));
            good(mdb_txn_commit(first));
        }
        lmdb.shift(quotes);
        unsafe {
            let (environment, reader) = (lmdb.environment, &mut lmdb.reader);
            good(mdb_txn_begin(environment, null_mut(), READ_ONLY, reader));
            mdb_txn_reset(lmdb.reader);
        }
        lmdb
    }
}

impl Quotes for Lmdb {
    fn shift(&mut self, quotes: &[Quote]) {
        let mut transaction = null_mut();
        unsafe {
            good(mdb_txn_begin(
                self.environment,
                null_mut(),
                0,
                &mut transaction,
            ))
        };
        for (key, value) in quotes {
            let (mut key, mut value) = (key.to_ne_bytes(), *value);
            let (mut key, mut value) = (lent(&mut key), lent(&mut value));
            unsafe { good(mdb_put(transaction, self.database, &mut key, &mut value, 0)) };
        }
        unsafe { good(mdb_txn_commit(transaction)) };
    }

    fn lookup(&mut self, key: u64) -> Option<[u8; 8]> {
        let mut key = key.to_ne_bytes();
        let mut key = lent(&mut key);
        let mut value = Bytes {
            size: 0,
            data: null_mut(),
        };
        unsafe {
            good(mdb_txn_renew(self.reader));
            let answer = mdb_get(self.reader, self.database, &mut key, &mut value);
            let found = (answer == 0).then(|| {
                assert_eq!(value.size, 8);
                (value.data as *const [u8; 8]).read_unaligned()
            });
            if found.is_none() && answer != NOT_FOUND {
                good(answer);
            }
            mdb_txn_reset(self.reader);
            found
        }
    }
}

impl Drop for Lmdb {
    fn drop(&mut self) {
        unsafe {
            mdb_txn_abort(self.reader);
            mdb_env_close(self.environment);
        }
    }
}
