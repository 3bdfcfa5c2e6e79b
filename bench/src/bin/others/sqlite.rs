//! SQLite through its C interface: one table by integer primary key, prepared
//! statements, `synchronous=FULL`, else its defaults.

use crate::{Quote, Quotes};
use std::ffi::{c_char, c_int, c_void, CStr, CString};
use std::ptr::{null, null_mut};

/// The part of `sqlite3.h` that is used here.
mod interface {
    use super::*;

    #[link(name = "sqlite3")]
    extern "C" {
        pub fn sqlite3_libversion() -> *const c_char;
        pub fn sqlite3_open(file: *const c_char, database: *mut *mut c_void) -> c_int;
        pub fn sqlite3_close(database: *mut c_void) -> c_int;
        pub fn sqlite3_errmsg(database: *mut c_void) -> *const c_char;
        pub fn sqlite3_changes(database: *mut c_void) -> c_int;
        pub fn sqlite3_prepare_v2(
            database: *mut c_void,
            text: *const c_char,
            length: c_int,
            statement: *mut *mut c_void,
            rest: *mut *const c_char,
        ) -> c_int;
        pub fn sqlite3_bind_int64(statement: *mut c_void, which: c_int, number: i64) -> c_int;
        pub fn sqlite3_bind_blob(
            statement: *mut c_void,
            which: c_int,
            bytes: *const c_void,
            length: c_int,
            destructor: *const c_void,
        ) -> c_int;
        pub fn sqlite3_step(statement: *mut c_void) -> c_int;
        pub fn sqlite3_reset(statement: *mut c_void) -> c_int;
        pub fn sqlite3_finalize(statement: *mut c_void) -> c_int;
        pub fn sqlite3_column_blob(statement: *mut c_void, which: c_int) -> *const c_void;
        pub fn sqlite3_column_text(statement: *mut c_void, which: c_int) -> *const c_char;
        pub fn sqlite3_column_bytes(statement: *mut c_void, which: c_int) -> c_int;
    }
}

use interface::*;

const OK: c_int = 0;
const ROW: c_int = 100;
const DONE: c_int = 101;

/// How SQLite keeps a transaction whole.
#[derive(Clone, Copy)]
pub enum Journal {
    Wal,
    Delete,
}

pub struct Sqlite {
    database: *mut c_void,
    begin: *mut c_void,
    commit: *mut c_void,
    update: *mut c_void,
    select: *mut c_void,
}

pub fn version() -> String {
    // Sound: SQLite's version is a C string that lives as long as the program.
    unsafe { text(sqlite3_libversion()) }
}

/// Sound if the pointer is to a C string.
unsafe fn text(from: *const c_char) -> String {
    CStr::from_ptr(from).to_string_lossy().into_owned()
}

// Sound, all below: the database and its statements live until `drop`; a
// statement is bound and stepped by one call at a time and reset at its end; a
// value that is bound or read is used before that.
impl Sqlite {
    pub fn new(file: &str, journal: Journal, quotes: &[Quote]) -> Sqlite {
        let mut sqlite = Sqlite {
            database: null_mut(),
            begin: null_mut(),
            commit: null_mut(),
            update: null_mut(),
            select: null_mut(),
        };
        let file = CString::new(file).expect("a path has no zero byte");
        let opened = unsafe { sqlite3_open(file.as_ptr(), &mut sqlite.database) };
        sqlite.expect(OK, opened);
        let mode = match journal {
            Journal::Wal => "wal",
            Journal::Delete => "delete",
        };
        let said = sqlite.once(&format!("PRAGMA journal_mode={mode}"));
        assert_eq!(said.as_deref(), Some(mode), "the journal mode is refused");
        sqlite.once("PRAGMA synchronous=FULL");
        sqlite.once("CREATE TABLE quote(key INTEGER PRIMARY KEY, value BLOB NOT NULL)");
        sqlite.begin = sqlite.prepare("BEGIN IMMEDIATE");
        sqlite.commit = sqlite.prepare("COMMIT");
        let insert = sqlite.prepare("INSERT INTO quote(value, key) VALUES (?1, ?2)");
        sqlite.whole(|sqlite| quotes.iter().for_each(|quote| sqlite.write(insert, quote)));
        unsafe { sqlite3_finalize(insert) };
        sqlite.update = sqlite.prepare("UPDATE quote SET value = ?1 WHERE key = ?2");
        sqlite.select = sqlite.prepare("SELECT value FROM quote WHERE key = ?1");
        sqlite
    }

    fn expect(&self, wanted: c_int, answer: c_int) {
        if answer != wanted {
            let why = unsafe { text(sqlite3_errmsg(self.database)) };
            panic!("SQLite answers {answer}: {why}");
        }
    }

    fn prepare(&self, words: &str) -> *mut c_void {
        let words = CString::new(words).expect("no zero byte");
        let mut statement = null_mut();
        let (database, to) = (self.database, &mut statement);
        let answer = unsafe { sqlite3_prepare_v2(database, words.as_ptr(), -1, to, null_mut()) };
        self.expect(OK, answer);
        statement
    }

    /// Makes a statement once; its first column if it answers with a row.
    fn once(&self, words: &str) -> Option<String> {
        let statement = self.prepare(words);
        let answer = unsafe { sqlite3_step(statement) };
        let said = (answer == ROW).then(|| unsafe { text(sqlite3_column_text(statement, 0)) });
        if said.is_none() {
            self.expect(DONE, answer);
        }
        unsafe { sqlite3_finalize(statement) };
        said
    }

    fn step(&self, statement: *mut c_void) {
        self.expect(DONE, unsafe { sqlite3_step(statement) });
        self.expect(OK, unsafe { sqlite3_reset(statement) });
    }

    /// All that is done there in one transaction.
    fn whole(&self, work: impl Fn(&Sqlite)) {
        self.step(self.begin);
        work(self);
        self.step(self.commit);
    }

    /// A statement with a value and a key, which changes one row.
    fn write(&self, statement: *mut c_void, (key, value): &Quote) {
        let bytes = value.as_ptr() as *const c_void;
        self.expect(OK, unsafe {
            sqlite3_bind_blob(statement, 1, bytes, 8, null())
        });
        self.expect(OK, unsafe { sqlite3_bind_int64(statement, 2, *key as i64) });
        self.step(statement);
        let changes = unsafe { sqlite3_changes(self.database) };
        assert_eq!(changes, 1, "SQLite changed other than one row");
    }
}

impl Quotes for Sqlite {
    /// One statement is a transaction by itself.
    fn shift(&mut self, quotes: &[Quote]) {
        match quotes {
            [quote] => self.write(self.update, quote),
            _ => self.whole(|sqlite| {
                let update = sqlite.update;
                quotes.iter().for_each(|quote| sqlite.write(update, quote));
            }),
        }
    }

    fn lookup(&mut self, key: u64) -> Option<[u8; 8]> {
        self.expect(OK, unsafe {
            sqlite3_bind_int64(self.select, 1, key as i64)
        });
        let answer = unsafe { sqlite3_step(self.select) };
        let value = (answer == ROW).then(|| unsafe {
            assert_eq!(sqlite3_column_bytes(self.select, 0), 8);
            *(sqlite3_column_blob(self.select, 0) as *const [u8; 8])
        });
        if value.is_none() {
            self.expect(DONE, answer);
        }
        self.expect(OK, unsafe { sqlite3_reset(self.select) });
        value
    }
}

impl Drop for Sqlite {
    fn drop(&mut self) {
        unsafe {
            for statement in [self.begin, self.commit, self.update, self.select] {
                sqlite3_finalize(statement);
            }
            sqlite3_close(self.database);
        }
    }
}
