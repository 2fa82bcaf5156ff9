//! SQLite, in memory: a table of ids and blobs, prepared statements, one transaction for all inserts
//! of a unit.

use others::{summary_at, Other};
use std::ffi::{c_char, c_int, c_void, CStr};
use std::process::ExitCode;
use std::ptr::{null, null_mut};

#[link(name = "sqlite3")]
extern "C" {
    fn sqlite3_open(name: *const c_char, db: *mut *mut c_void) -> c_int;
    fn sqlite3_exec(db: *mut c_void, sql: *const c_char, row: *const c_void, data: *mut c_void, error: *mut *mut c_char) -> c_int;
    fn sqlite3_prepare_v2(db: *mut c_void, sql: *const c_char, size: c_int, made: *mut *mut c_void, tail: *mut *const c_char) -> c_int;
    fn sqlite3_bind_blob(statement: *mut c_void, place: c_int, data: *const u8, size: c_int, free: *const c_void) -> c_int;
    fn sqlite3_bind_int64(statement: *mut c_void, place: c_int, number: i64) -> c_int;
    fn sqlite3_step(statement: *mut c_void) -> c_int;
    fn sqlite3_reset(statement: *mut c_void) -> c_int;
    fn sqlite3_column_blob(statement: *mut c_void, column: c_int) -> *const u8;
    fn sqlite3_column_bytes(statement: *mut c_void, column: c_int) -> c_int;
    fn sqlite3_last_insert_rowid(db: *mut c_void) -> i64;
}

const ROW: c_int = 100;
const DONE: c_int = 101;

struct Sqlite {
    db: *mut c_void,
    inserting: *mut c_void,
    reading: *mut c_void,
    scanning: *mut c_void,
    in_transaction: bool,
}

impl Sqlite {
    fn execute(&mut self, sql: &CStr) {
        let ended = unsafe { sqlite3_exec(self.db, sql.as_ptr(), null(), null_mut(), null_mut()) };
        assert_eq!(ended, 0, "{sql:?}");
    }

    fn prepare(&mut self, sql: &CStr) -> *mut c_void {
        let mut made = null_mut();
        let ended = unsafe { sqlite3_prepare_v2(self.db, sql.as_ptr(), -1, &mut made, null_mut()) };
        assert_eq!(ended, 0, "{sql:?}");
        made
    }
}

unsafe fn first_column(statement: *mut c_void) -> u64 {
    let size = sqlite3_column_bytes(statement, 0) as usize;
    summary_at(sqlite3_column_blob(statement, 0), size)
}

impl Other for Sqlite {
    fn new() -> Sqlite {
        let mut db = null_mut();
        assert_eq!(unsafe { sqlite3_open(c":memory:".as_ptr(), &mut db) }, 0);
        let mut made = Sqlite { db, inserting: null_mut(), reading: null_mut(), scanning: null_mut(), in_transaction: false };
        made.execute(c"CREATE TABLE rows (id INTEGER PRIMARY KEY, data BLOB NOT NULL)");
        made.inserting = made.prepare(c"INSERT INTO rows (data) VALUES (?1)");
        made.reading = made.prepare(c"SELECT data FROM rows WHERE id = ?1");
        made.scanning = made.prepare(c"SELECT data, id FROM rows");
        made
    }

    fn insert(&mut self, row: &[u8]) -> u64 {
        if !self.in_transaction {
            self.execute(c"BEGIN");
            self.in_transaction = true;
        }
        unsafe {
            sqlite3_bind_blob(self.inserting, 1, row.as_ptr(), row.len() as c_int, null());
            assert_eq!(sqlite3_step(self.inserting), DONE);
            sqlite3_reset(self.inserting);
            sqlite3_last_insert_rowid(self.db) as u64
        }
    }

    fn read(&mut self, id: u64) -> u64 {
        unsafe {
            sqlite3_bind_int64(self.reading, 1, id as i64);
            assert_eq!(sqlite3_step(self.reading), ROW);
            let told = first_column(self.reading);
            sqlite3_reset(self.reading);
            told
        }
    }

    fn scan(&mut self) -> u64 {
        let mut rows = 0;
        unsafe {
            while sqlite3_step(self.scanning) == ROW {
                std::hint::black_box(first_column(self.scanning));
                rows += 1;
            }
            sqlite3_reset(self.scanning);
        }
        rows
    }

    fn commit(&mut self) {
        if std::mem::take(&mut self.in_transaction) {
            self.execute(c"COMMIT");
        }
    }
}

fn main() -> ExitCode {
    others::main::<Sqlite>()
}
