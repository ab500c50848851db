//! Script shells.

use std::fmt;

use crate::calls::{self, Handle};
use crate::found::room_for;
use crate::{check, Error};

/// A script shell: it is fed a script in whatever parts.
///
/// ```
/// let mut shell = juicedelta::Shell::new()?;
/// shell.execute("CREATE VIRTUAL TABLE t USING rtree_i32(id, a, b); INSERT INTO t VALUES (1, 2, 3);")?;
/// assert_eq!(shell.execute("SELECT * FROM t;")?, "1|2|3\n");
/// # Ok::<(), juicedelta::Error>(())
/// ```
pub struct Shell(pub(crate) Handle);

impl Shell {
    /// With nodes of at most 51 cells, as SQLite's.
    ///
    /// ```
    /// let mut shell = juicedelta::Shell::new()?;
    /// assert_eq!(shell.execute("SELECT * FROM t;")?, "refused 1 5: no such table\n");
    /// # Ok::<(), juicedelta::Error>(())
    /// ```
    pub fn new() -> Result<Self, Error> {
        Self::with_capacity(51)
    }

    /// With nodes of at most `capacity` cells, from 5 to 51 (`BadCapacity`).
    ///
    /// ```
    /// use juicedelta::{Error, Shell};
    /// assert_eq!(Shell::with_capacity(52).unwrap_err(), Error::BadCapacity);
    /// ```
    pub fn with_capacity(capacity: u32) -> Result<Self, Error> {
        // SAFETY: the handle holds nothing yet.
        let open = |new: &mut _, first, second| unsafe { calls::juicedelta_script_open(new, capacity, first, second) };
        Handle::opened(open).map(Self)
    }

    /// Feeds the shell some text, and answers what it prints (`Ended`; `OutOfMemory`: it takes no more of the script, or
    /// the next call answers what it printed).
    ///
    /// ```
    /// let mut shell = juicedelta::Shell::new()?;
    /// assert_eq!(shell.execute("CREATE VIRTUAL TABLE t USING rtree_i32(id, a, b); SELECT * FR")?, "");
    /// assert_eq!(shell.execute("OM t; SELECT * FROM u;")?, "refused 3 5: no such table\n");
    /// # Ok::<(), juicedelta::Error>(())
    /// ```
    pub fn execute(&mut self, text: &str) -> Result<String, Error> {
        // SAFETY: the text has that length.
        check(unsafe { calls::juicedelta_script_exec(&mut self.0, text.as_ptr(), text.len()) })?;
        self.printed()
    }

    /// Ends the script: whether any statement of it was refused, and what its end prints (`Ended`).
    ///
    /// ```
    /// let mut shell = juicedelta::Shell::new()?;
    /// shell.execute("SELECT")?;
    /// assert_eq!(shell.finish()?, (true, "refused 1 2: incomplete input\n".to_string()));
    /// # Ok::<(), juicedelta::Error>(())
    /// ```
    pub fn finish(&mut self) -> Result<(bool, String), Error> {
        let mut refused = 0;
        check(unsafe { calls::juicedelta_script_finish(&mut self.0, &mut refused) })?;
        Ok((refused != 0, self.printed()?))
    }

    fn printed(&mut self) -> Result<String, Error> {
        let length =
            calls::number(|length| unsafe { calls::juicedelta_script_output_length(&self.0, length) })? as usize;
        let mut text = room_for(length)?;
        // SAFETY: there is room for the output, which has that length, and the call writes all of it.
        unsafe {
            check(calls::juicedelta_script_output(&self.0, text.as_mut_ptr(), length))?;
            text.set_len(length);
            check(calls::juicedelta_script_drop_output(&mut self.0))?;
        }
        Ok(String::from_utf8(text).unwrap_or_else(|it| String::from_utf8_lossy(it.as_bytes()).into_owned()))
    }
}

impl Default for Shell {
    /// By `new`. It panics where that is refused.
    fn default() -> Self {
        Self::new().expect("there is memory for a shell")
    }
}

impl fmt::Debug for Shell {
    fn fmt(&self, f: &mut fmt::Formatter<'_>) -> fmt::Result {
        f.debug_struct("Shell").finish_non_exhaustive()
    }
}
