//! LMDB, on a RAM file system: ids as integer keys, appended; one transaction for all inserts of a
//! unit, nothing waited for to reach a disk; one transaction for all reads.

use others::{summary_at, Other};
use std::ffi::{c_char, c_int, c_uint, c_void, CString};
use std::path::{Path, PathBuf};
use std::process::ExitCode;
use std::ptr::null_mut;
use std::sync::atomic::{AtomicU32, Ordering};

#[repr(C)]
struct Value {
    size: usize,
    data: *mut c_void,
}

#[link(name = "lmdb")]
extern "C" {
    fn mdb_env_create(env: *mut *mut c_void) -> c_int;
    fn mdb_env_set_mapsize(env: *mut c_void, size: usize) -> c_int;
    fn mdb_env_open(env: *mut c_void, path: *const c_char, flags: c_uint, mode: c_uint) -> c_int;
    fn mdb_env_close(env: *mut c_void);
    fn mdb_txn_begin(env: *mut c_void, parent: *mut c_void, flags: c_uint, made: *mut *mut c_void) -> c_int;
    fn mdb_txn_commit(transaction: *mut c_void) -> c_int;
    fn mdb_txn_abort(transaction: *mut c_void);
    fn mdb_dbi_open(transaction: *mut c_void, name: *const c_char, flags: c_uint, db: *mut c_uint) -> c_int;
    fn mdb_put(transaction: *mut c_void, db: c_uint, key: *mut Value, data: *mut Value, flags: c_uint) -> c_int;
    fn mdb_get(transaction: *mut c_void, db: c_uint, key: *mut Value, data: *mut Value) -> c_int;
    fn mdb_cursor_open(transaction: *mut c_void, db: c_uint, cursor: *mut *mut c_void) -> c_int;
    fn mdb_cursor_get(cursor: *mut c_void, key: *mut Value, data: *mut Value, op: c_uint) -> c_int;
    fn mdb_cursor_close(cursor: *mut c_void);
}

const NO_SYNC: c_uint = 0x10000;
const WRITE_MAP: c_uint = 0x80000;
const READ_ONLY: c_uint = 0x20000;
const INTEGER_KEY: c_uint = 0x08;
const CREATE: c_uint = 0x40000;
const APPEND: c_uint = 0x20000;
const NEXT: c_uint = 8;
const MAP_SIZE: usize = 1 << 26;

struct Lmdb {
    folder: PathBuf,
    env: *mut c_void,
    db: c_uint,
    writing: *mut c_void,
    reading: *mut c_void,
    rows: u64,
}

fn done(ended: c_int) {
    assert_eq!(ended, 0, "LMDB's answer");
}

fn key(id: &u64) -> Value {
    Value { size: 8, data: id as *const u64 as *mut c_void }
}

fn new_folder() -> PathBuf {
    static MADE: AtomicU32 = AtomicU32::new(0);
    let ram = Path::new("/dev/shm");
    let parent = if ram.is_dir() { ram.to_path_buf() } else { std::env::temp_dir() };
    let name = format!("hekatosuy-lmdb-{}-{}", std::process::id(), MADE.fetch_add(1, Ordering::Relaxed));
    let folder = parent.join(name);
    std::fs::create_dir(&folder).expect("a folder for LMDB");
    folder
}

impl Lmdb {
    fn begin(&self, flags: c_uint) -> *mut c_void {
        let mut made = null_mut();
        done(unsafe { mdb_txn_begin(self.env, null_mut(), flags, &mut made) });
        made
    }

    fn begin_reading(&mut self) -> *mut c_void {
        if self.reading.is_null() {
            self.reading = self.begin(READ_ONLY);
        }
        self.reading
    }
}

impl Other for Lmdb {
    fn new() -> Lmdb {
        let folder = new_folder();
        let path = CString::new(folder.to_str().expect("a path in UTF-8")).expect("a path without zeros");
        let mut made = Lmdb { folder, env: null_mut(), db: 0, writing: null_mut(), reading: null_mut(), rows: 0 };
        unsafe {
            done(mdb_env_create(&mut made.env));
            done(mdb_env_set_mapsize(made.env, MAP_SIZE));
            done(mdb_env_open(made.env, path.as_ptr(), NO_SYNC | WRITE_MAP, 0o600));
            let transaction = made.begin(0);
            done(mdb_dbi_open(transaction, std::ptr::null(), INTEGER_KEY | CREATE, &mut made.db));
            done(mdb_txn_commit(transaction));
        }
        made
    }

    fn insert(&mut self, row: &[u8]) -> u64 {
        if self.writing.is_null() {
            self.writing = self.begin(0);
        }
        self.rows += 1;
        let mut data = Value { size: row.len(), data: row.as_ptr() as *mut c_void };
        done(unsafe { mdb_put(self.writing, self.db, &mut key(&self.rows), &mut data, APPEND) });
        self.rows
    }

    fn read(&mut self, id: u64) -> u64 {
        let transaction = self.begin_reading();
        let mut data = Value { size: 0, data: null_mut() };
        unsafe {
            done(mdb_get(transaction, self.db, &mut key(&id), &mut data));
            summary_at(data.data as *const u8, data.size)
        }
    }

    fn scan(&mut self) -> u64 {
        let transaction = self.begin_reading();
        let (mut found, mut data) = (key(&0), Value { size: 0, data: null_mut() });
        let (mut cursor, mut rows) = (null_mut(), 0);
        unsafe {
            done(mdb_cursor_open(transaction, self.db, &mut cursor));
            while mdb_cursor_get(cursor, &mut found, &mut data, NEXT) == 0 {
                std::hint::black_box(summary_at(data.data as *const u8, data.size));
                rows += 1;
            }
            mdb_cursor_close(cursor);
        }
        rows
    }

    fn commit(&mut self) {
        if !self.writing.is_null() {
            done(unsafe { mdb_txn_commit(std::mem::replace(&mut self.writing, null_mut())) });
        }
        if !self.reading.is_null() {
            unsafe { mdb_txn_abort(std::mem::replace(&mut self.reading, null_mut())) }
        }
    }
}

impl Drop for Lmdb {
    fn drop(&mut self) {
        self.commit();
        unsafe { mdb_env_close(self.env) }
        std::fs::remove_dir_all(&self.folder).ok();
    }
}

fn main() -> ExitCode {
    others::main::<Lmdb>()
}
