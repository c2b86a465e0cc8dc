// SQLite in memory, doing the same reads and updates in transactions, through the few calls of its C library that are needed.
use std::ffi::{CStr, CString, c_char, c_int, c_void};
use std::ptr::null_mut;

#[link(name = "sqlite3")]
unsafe extern "C" {
    fn sqlite3_open(name: *const c_char, db: *mut *mut c_void) -> c_int;
    fn sqlite3_close(db: *mut c_void) -> c_int;
    fn sqlite3_prepare_v2(db: *mut c_void, sql: *const c_char, len: c_int, statement: *mut *mut c_void, rest: *mut *const c_char) -> c_int;
    fn sqlite3_bind_int64(statement: *mut c_void, at: c_int, value: i64) -> c_int;
    fn sqlite3_step(statement: *mut c_void) -> c_int;
    fn sqlite3_reset(statement: *mut c_void) -> c_int;
    fn sqlite3_column_int64(statement: *mut c_void, at: c_int) -> i64;
    fn sqlite3_finalize(statement: *mut c_void) -> c_int;
    fn sqlite3_libversion() -> *const c_char;
}

const ROW: c_int = 100;
const DONE: c_int = 101;

pub fn version() -> String {
    unsafe { CStr::from_ptr(sqlite3_libversion()) }.to_string_lossy().into_owned()
}

struct Statement(*mut c_void);

impl Statement {
    fn new(db: *mut c_void, sql: &str) -> Statement {
        let text = CString::new(sql).expect("no zero byte");
        let mut statement = null_mut();
        let status = unsafe { sqlite3_prepare_v2(db, text.as_ptr(), -1, &mut statement, null_mut()) };
        assert_eq!(status, 0, "{sql}");
        Statement(statement)
    }

    // Runs it with these numbers, and answers the columns of its row, if it has one.
    fn run<const N: usize>(&self, numbers: &[i64], columns: c_int) -> Option<[i64; N]> {
        unsafe {
            for (i, number) in numbers.iter().enumerate() {
                sqlite3_bind_int64(self.0, i as c_int + 1, *number);
            }
            let status = sqlite3_step(self.0);
            assert!(status == ROW || status == DONE, "status {status}");
            let mut row = [0; N];
            for at in 0..columns {
                row[at as usize] = sqlite3_column_int64(self.0, at);
            }
            sqlite3_reset(self.0);
            (status == ROW).then_some(row)
        }
    }
}

impl Drop for Statement {
    fn drop(&mut self) {
        unsafe { sqlite3_finalize(self.0) };
    }
}

// A table of cards, each with its newest version's number and words.
pub struct Cards {
    begin: Statement,
    commit: Statement,
    select: Statement,
    update: Statement,
    db: Handle,
}

struct Handle(*mut c_void);

impl Drop for Handle {
    fn drop(&mut self) {
        unsafe { sqlite3_close(self.0) };
    }
}

impl Cards {
    pub fn new(cards: u32) -> Cards {
        let mut db = null_mut();
        assert_eq!(unsafe { sqlite3_open(c":memory:".as_ptr(), &mut db) }, 0);
        Statement::new(
            db,
            "CREATE TABLE cards (card INTEGER PRIMARY KEY, version INTEGER, first INTEGER, second INTEGER)",
        )
        .run::<1>(&[], 0);
        let insert = Statement::new(db, "INSERT INTO cards VALUES (?, 0, 0, 0)");
        for card in 0..cards {
            insert.run::<1>(&[i64::from(card)], 0);
        }
        drop(insert);
        Cards {
            begin: Statement::new(db, "BEGIN"),
            commit: Statement::new(db, "COMMIT"),
            select: Statement::new(db, "SELECT version, first, second FROM cards WHERE card = ?"),
            update: Statement::new(db, "UPDATE cards SET version = version + 1, first = ?, second = ? WHERE card = ?"),
            db: Handle(db),
        }
    }

    pub fn begin(&self) {
        debug_assert!(!self.db.0.is_null());
        self.begin.run::<1>(&[], 0);
    }

    pub fn commit(&self) {
        self.commit.run::<1>(&[], 0);
    }

    // The version's number and words.
    pub fn read(&self, card: u32) -> [i64; 3] {
        self.select.run::<3>(&[i64::from(card)], 3).expect("a listed card")
    }

    pub fn write(&self, card: u32, words: (u64, u64)) {
        self.update.run::<1>(&[words.0 as i64, words.1 as i64, i64::from(card)], 0);
    }
}
