//! bitcol inside a Rust program: an in-memory store that answers scripts.
//!
//! ```
//! use bitcol::{End, OnError, Store};
//!
//! # fn main() -> Result<(), bitcol::Error> {
//! let mut store = Store::open(OnError::Continue)?;
//! store.put_file("visits.csv", b"1,30\n1,NULL\n2,45\n")?;
//! let answer = store.answer(
//!     "CREATE TABLE visits (day INT, seconds INT); LOAD visits FROM 'visits.csv';
//!      SELECT SUM(seconds) FROM visits WHERE day < 3;",
//! );
//! assert_eq!(answer.end, End::Done);
//! assert_eq!(answer.replies, b"ok\nok 3\nSUM(SECONDS)\n75\nrows 1\n");
//! # Ok(())
//! # }
//! ```

mod calls;

use std::error;
use std::fmt;

use calls::Handle;

/// What to do after a reply that is an error.
#[derive(Clone, Copy, Debug, PartialEq, Eq)]
pub enum OnError {
    /// Execute the statements that follow it in the script.
    Continue,
    /// Execute nothing more of the script.
    Stop,
}

/// How a script ended.
#[derive(Clone, Copy, Debug, PartialEq, Eq)]
pub enum End {
    /// Each statement was answered, including refused ones.
    Done,
    /// A reply was an error, and the store was opened to stop there.
    Stopped,
    /// There was no memory for a reply. Its statement was executed, a prefix of the reply is kept, and what follows was
    /// not executed.
    CutOff,
}

/// The answer to a script.
#[derive(Clone, Debug, PartialEq, Eq)]
pub struct Answer {
    /// How the script ended.
    pub end: End,
    /// The replies, as the program writes them.
    pub replies: Vec<u8>,
}

/// Why a call did nothing.
#[derive(Clone, Copy, Debug, PartialEq, Eq)]
pub enum Error {
    /// There is no memory for a store or a file.
    NoMemory,
}

impl fmt::Display for Error {
    fn fmt(&self, formatter: &mut fmt::Formatter<'_>) -> fmt::Result {
        match self {
            Error::NoMemory => formatter.write_str("there is no memory for a store or a file"),
        }
    }
}

impl error::Error for Error {}

/// An in-memory store with files of its own. Statements can reach no other files.
#[derive(Debug)]
pub struct Store {
    handle: Handle,
}

impl Store {
    /// Opens a store without tables and files.
    ///
    /// # Errors
    ///
    /// `Error::NoMemory`.
    pub fn open(on_error: OnError) -> Result<Store, Error> {
        let handle = calls::open(on_error == OnError::Stop).ok_or(Error::NoMemory)?;
        Ok(Store { handle })
    }

    /// Answers the statements of a script on the tables and files that earlier scripts left. Each statement needs its
    /// `;`. A refused statement is reported in the replies, and so is one that runs out of memory.
    pub fn answer(&mut self, script: &str) -> Answer {
        let end = match calls::answer(&mut self.handle, script.as_bytes()) {
            calls::DONE => End::Done,
            calls::STOPPED => End::Stopped,
            _ => End::CutOff,
        };
        let mut replies = vec![0; calls::reply_length(&mut self.handle)];
        let copied = calls::reply(&mut self.handle, 0, &mut replies);
        replies.truncate(copied);
        Answer { end, replies }
    }

    /// Writes one of the store's own files, replacing one of that name, for LOAD and OPEN.
    ///
    /// # Errors
    ///
    /// `Error::NoMemory`: no file changed.
    pub fn put_file(&mut self, name: &str, bytes: &[u8]) -> Result<(), Error> {
        match calls::put_file(&mut self.handle, name.as_bytes(), bytes) {
            calls::DONE => Ok(()),
            _ => Err(Error::NoMemory),
        }
    }

    /// Returns one of the store's own files, as SAVE or `put_file` wrote it; `None` if there is no such file.
    pub fn file(&mut self, name: &str) -> Option<Vec<u8>> {
        let mut bytes = Vec::new();
        loop {
            let (status, length) = calls::file(&mut self.handle, name.as_bytes(), &mut bytes);
            match status {
                calls::DONE => return Some(bytes),
                calls::NO_ROOM => bytes.resize(length, 0),
                _ => return None,
            }
        }
    }
}

#[cfg(test)]
mod tests {
    use super::*;

    fn opened(on_error: OnError) -> Store {
        Store::open(on_error).expect("memory")
    }

    fn replies(store: &mut Store, script: &str) -> String {
        String::from_utf8(store.answer(script).replies).expect("replies are ASCII")
    }

    #[test]
    fn tables_stay_between_scripts() {
        let mut store = opened(OnError::Continue);
        assert_eq!(
            replies(&mut store, "CREATE TABLE t (a INT); INSERT INTO t VALUES (3), (NULL)"),
            "ok\nerror 10: syntax error\n"
        );
        assert_eq!(replies(&mut store, "INSERT INTO t VALUES (3), (NULL);"), "ok 2\n");
        assert_eq!(replies(&mut store, "SELECT a FROM t;"), "A\n3\nNULL\nrows 2\n");
        assert_eq!(replies(&mut store, ""), "");
    }

    #[test]
    fn an_error_stops_a_script_where_it_should() {
        let script = "SELECT a FROM t; CREATE TABLE t (a INT);";
        let mut store = opened(OnError::Stop);
        assert_eq!(store.answer(script).end, End::Stopped);
        assert_eq!(replies(&mut store, "TABLES;"), "TABLE,COLUMNS,ROWS\nrows 0\n");
        let mut store = opened(OnError::Continue);
        assert_eq!(store.answer(script).end, End::Done);
        assert_eq!(replies(&mut store, "TABLES;"), "TABLE,COLUMNS,ROWS\nT,1,0\nrows 1\n");
    }

    #[test]
    fn files_go_in_and_out() {
        let mut store = opened(OnError::Continue);
        store.put_file("a.csv", b"1\n2\n").expect("memory");
        store.put_file("empty", b"").expect("memory");
        let script = "CREATE TABLE t (a INT); LOAD t FROM 'a.csv'; SAVE t TO 't';";
        assert_eq!(replies(&mut store, script), "ok\nok 2\nok 2\n");
        let saved = store.file("t").expect("it was saved");
        assert_eq!((saved.len(), &saved[..6]), (30, b"BITCOL".as_slice()));
        assert_eq!((store.file("empty"), store.file("none")), (Some(Vec::new()), None));
        let mut other = opened(OnError::Continue);
        other.put_file("u", &saved).expect("memory");
        assert_eq!(replies(&mut other, "OPEN u FROM 'u'; SELECT SUM(a) FROM u;"), "ok 2\nSUM(A)\n3\nrows 1\n");
    }

    #[test]
    fn a_store_goes_to_another_thread() {
        let mut store = opened(OnError::Continue);
        replies(&mut store, "CREATE TABLE t (a INT);");
        let answered = std::thread::spawn(move || replies(&mut store, "TABLES;")).join();
        assert_eq!(answered.expect("it ends"), "TABLE,COLUMNS,ROWS\nT,1,0\nrows 1\n");
    }
}
