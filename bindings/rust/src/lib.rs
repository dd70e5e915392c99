//! Safe bindings to Shupkelen, a proved solver for constraints on types and dimensions.
//!
//! A [`NameTable`] owns names, a [`Solver`] the buffers that a call is lent. A set of constraints is read from the text of a sheet ([`Solver::read_text`]), made of trees
//! ([`Constraint`], [`records_of`]), or written as records, four words each ([`record`], docs/RECORDS.md of the repository). [`raw`] has every call over plain slices.
//!
//! ```
//! use shupkelen::{NameTable, Solver};
//!
//! let (mut names, mut solver) = (NameTable::new(), Solver::new());
//! let sheet = solver.read_text(&mut names, b"?distance ~ [#km]\n[?distance * ?rate] ~ [#euro]\n")?;
//! let solution = solver.confirm(&names, &sheet.records)?;
//! let lines: Vec<String> = solution.bindings(&names)?.iter().map(|b| b.to_string()).collect();
//! assert_eq!(lines, ["?distance ~ [#km]", "?rate ~ [#euro * #km^(-1)]"]);
//! # Ok::<(), Box<dyn std::error::Error>>(())
//! ```
//!
//! A call needs up to 1 MB of stack: the usual main thread (8 MB) and Rust's threads (2 MB) have it. Calls on separate values may run on separate threads.
#![warn(missing_docs)]

pub mod raw;
mod tree;

pub use tree::{records_of, Base, Binding, Constraint, Factor, Name, Power, Type};

use std::error::Error;
use std::fmt;

/// Bytes of a name table's pool.
pub const POOL_BYTES: usize = 8192;
/// Words of a name table: how many names, and where each of up to 256 ends in the pool.
pub const TABLE_WORDS: usize = 257;
/// Words of a list of 2,048 records, and of a result buffer.
pub const LIST_WORDS: usize = 8192;
/// Words of a work buffer.
pub const WORK_WORDS: usize = 16384;
/// Words of a product of 64 factors.
pub const PRODUCT_WORDS: usize = 256;
/// Bytes that a rescued file can have.
pub const KEPT_BYTES: usize = 32768;
/// Places that a rescue can name.
pub const SKIPPED_WORDS: usize = 2049;
/// Bytes that a set can have as text.
pub const TEXT_BYTES: usize = 354304;
/// How many sets [`solve_all`] takes.
pub const SETS: usize = 64;
/// How deep a type may be nested.
pub const NESTED: usize = 64;

/// The kinds of records (docs/RECORDS.md of the repository has their words).
pub mod kind {
    /// A variable.
    pub const VARIABLE: u32 = 1;
    /// A parameter.
    pub const PARAMETER: u32 = 2;
    /// A dimension; its factors follow.
    pub const DIMENSION: u32 = 3;
    /// Boolean.
    pub const BOOLEAN: u32 = 4;
    /// String.
    pub const STRING: u32 = 5;
    /// Date and time.
    pub const DATETIME: u32 = 6;
    /// A function; its parameters' types and the returned type follow.
    pub const FUNCTION: u32 = 7;
    /// A struct; its arguments' types and fields follow.
    pub const STRUCT: u32 = 8;
    /// A field; its type follows.
    pub const FIELD: u32 = 9;
    /// A list; its elements' type follows.
    pub const LIST: u32 = 10;
    /// A factor: a variable.
    pub const VARIABLE_FACTOR: u32 = 11;
    /// A factor: a parameter.
    pub const PARAMETER_FACTOR: u32 = 12;
    /// A factor: a base dimension.
    pub const BASE_FACTOR: u32 = 13;
    /// A quantified variable, in schemes.
    pub const QUANTIFIED: u32 = 14;
    /// A factor: a quantified variable, in schemes.
    pub const QUANTIFIED_FACTOR: u32 = 15;
    /// Two types, which follow, are the same.
    pub const EQUAL: u32 = 20;
    /// The type that follows is a dimension.
    pub const IS_DIMENSION: u32 = 21;
    /// The dimension that follows is the scalar.
    pub const EQUAL_SCALAR: u32 = 22;
    /// The type that follows has a field of the type behind it.
    pub const HAS_FIELD: u32 = 23;
    /// A variable is bound to the type that follows.
    pub const BINDING: u32 = 24;
    /// A name stands for a dimension.
    pub const BOUND: u32 = 25;
    /// A scheme; its type and bounds follow.
    pub const SCHEME: u32 = 26;
}

/// The steps of a calculation line ([`Solver::check_line`]), in postfix order, four words each: the step's number, then a, b, c, which are 0 where it doesn't use them.
pub mod step {
    /// A constant; a: the place of its type in `types`.
    pub const CONSTANT: u32 = 1;
    /// A reference; a: the number of an earlier line.
    pub const REFERENCE: u32 = 2;
    /// Adds two operands of one dimension.
    pub const ADD: u32 = 3;
    /// Subtracts an operand from another of its dimension.
    pub const SUBTRACT: u32 = 4;
    /// Multiplies two operands.
    pub const MULTIPLY: u32 = 5;
    /// Divides an operand by another.
    pub const DIVIDE: u32 = 6;
    /// Raises an operand to a fraction; b: numerator, c: denominator.
    pub const RAISE: u32 = 7;
    /// Compares two operands of one dimension: a boolean.
    pub const COMPARE: u32 = 8;
    /// Chooses by a condition, a boolean, between two operands of one type.
    pub const CHOOSE: u32 = 9;
}

/// A record: its kind, how many records the part has that it begins (itself counted), and its words a, b, c.
///
/// # Panics
/// Where the kind or the length is over 65,535: no word has room for both.
pub const fn record(kind: u32, length: u32, a: u32, b: u32, c: u32) -> [u32; 4] {
    assert!(kind <= 65_535 && length <= 65_535, "a kind and a length are at most 65,535");
    [kind + 65_536 * length, a, b, c]
}

/// Why a call gives no answer.
#[derive(Clone, Copy, Debug, PartialEq, Eq, Hash)]
#[repr(u32)]
#[non_exhaustive]
pub enum Refusal {
    /// A table, list, product or exponent that is not well formed; a number that no name has, in a list, an entry or among handed ones.
    Malformed = 1,
    /// A name of no byte, or of over 48.
    NameLength = 2,
    /// No room for a name; or a number was asked for, or lent for a line, that no name has.
    NoRoom = 3,
    /// One name is both a variable and a parameter; a name lent for a line is given twice or used in it.
    Mixed = 4,
    /// No rule applies, and constraints remain.
    Unsolved = 5,
    /// A type that is no dimension would enter a product.
    NotDimension = 6,
    /// An exponent is out of range.
    OutOfRange = 7,
    /// Over a limit of size: 2,048 records, names or entries, 64 nestings, 64 factors, 64 sets, 128 steps; or a set that the second engine doesn't take.
    TooLarge = 8,
    /// Another count of names than the scheme has; or a concrete type.
    WrongCount = 9,
    /// A lent buffer is too short.
    ShortBuffer = 10,
    /// The judge says no.
    NotConfirmed = 11,
    /// A line outside the grammar.
    NotGrammar = 12,
}

impl Refusal {
    const ALL: [Refusal; 12] = [
        Refusal::Malformed,
        Refusal::NameLength,
        Refusal::NoRoom,
        Refusal::Mixed,
        Refusal::Unsolved,
        Refusal::NotDimension,
        Refusal::OutOfRange,
        Refusal::TooLarge,
        Refusal::WrongCount,
        Refusal::ShortBuffer,
        Refusal::NotConfirmed,
        Refusal::NotGrammar,
    ];

    /// Its number in the documents.
    pub fn number(self) -> u32 {
        self as u32
    }
}

/// No refusal has this number.
#[derive(Clone, Copy, Debug, PartialEq, Eq)]
pub struct NoRefusal(pub u32);

impl fmt::Display for NoRefusal {
    fn fmt(&self, f: &mut fmt::Formatter<'_>) -> fmt::Result {
        write!(f, "no refusal has the number {}", self.0)
    }
}

impl Error for NoRefusal {}

/// The refusal with this number.
///
/// ```
/// use shupkelen::Refusal;
/// assert_eq!(Refusal::try_from(5), Ok(Refusal::Unsolved));
/// assert!(Refusal::try_from(0).is_err());
/// ```
impl TryFrom<u32> for Refusal {
    type Error = NoRefusal;

    fn try_from(n: u32) -> Result<Self, NoRefusal> {
        Refusal::ALL.into_iter().find(|r| r.number() == n).ok_or(NoRefusal(n))
    }
}

impl fmt::Display for Refusal {
    fn fmt(&self, f: &mut fmt::Formatter<'_>) -> fmt::Result {
        let why = match self {
            Refusal::Malformed => "malformed table, list, product or exponent",
            Refusal::NameLength => "a name has 1 to 48 bytes",
            Refusal::NoRoom => "no room for the name, or no name has the number",
            Refusal::Mixed => "one name is both a variable and a parameter, or a name lent for a line is not fresh",
            Refusal::Unsolved => "no rule applies and constraints remain",
            Refusal::NotDimension => "a type that is no dimension would enter a product",
            Refusal::OutOfRange => "an exponent is out of range",
            Refusal::TooLarge => "over a limit of size: records, nestings, factors, sets, steps, or what the second engine takes",
            Refusal::WrongCount => "the scheme has another count of names",
            Refusal::ShortBuffer => "a lent buffer is too short",
            Refusal::NotConfirmed => "the judge says no",
            Refusal::NotGrammar => "a line outside the grammar",
        };
        write!(f, "{why} ({})", self.number())
    }
}

impl Error for Refusal {}

// What was told, where nothing was refused. The archive returns 0 to 12 alone: every number is that of a `Refusal` of crates/rules.
fn said(t: raw::Told) -> Result<raw::Told, Refusal> {
    good(t.refusal).map(|()| t)
}

fn good(number: u32) -> Result<(), Refusal> {
    if number == 0 {
        return Ok(());
    }
    Err(Refusal::try_from(number).expect("the library refuses with 1 to 12"))
}

/// A name's number, and whether it was entered just now.
#[derive(Clone, Copy, Debug, PartialEq, Eq)]
pub struct Entered {
    /// Its number.
    pub number: u32,
    /// It was not in the table before.
    pub new: bool,
}

/// Up to 256 names of 1 to 48 bytes, with the numbers 0, 1, .. in the order in which they were entered.
///
/// ```
/// use shupkelen::{NameTable, Refusal};
/// let mut names = NameTable::new();
/// assert_eq!(names.enter(b"payee")?.number, 0);
/// assert!(!names.enter(b"payee")?.new);
/// assert_eq!(names.name(0), Ok(&b"payee"[..]));
/// assert_eq!(names.name(1), Err(Refusal::NoRoom));
/// assert_eq!(names.enter(&[b'a'; 49]), Err(Refusal::NameLength));
/// # Ok::<(), Refusal>(())
/// ```
#[derive(Clone, PartialEq, Eq)]
pub struct NameTable {
    pool: Vec<u8>,
    table: Vec<u32>,
}

impl fmt::Debug for NameTable {
    fn fmt(&self, f: &mut fmt::Formatter<'_>) -> fmt::Result {
        f.debug_struct("NameTable").field("names", &self.len()).finish_non_exhaustive()
    }
}

impl Default for NameTable {
    fn default() -> Self {
        NameTable::new()
    }
}

impl NameTable {
    /// No names.
    pub fn new() -> Self {
        NameTable { pool: vec![0; POOL_BYTES], table: vec![0; TABLE_WORDS] }
    }

    /// A table that was stored, from its pool and its table.
    ///
    /// # Errors
    /// [`Refusal::ShortBuffer`] of one that is too short, then [`Refusal::Malformed`].
    pub fn from_parts(pool: Vec<u8>, table: Vec<u32>) -> Result<Self, Refusal> {
        good(raw::check_table(&pool, &table))?;
        Ok(NameTable { pool, table })
    }

    /// The pool: the names' bytes, one name behind another.
    pub fn pool(&self) -> &[u8] {
        &self.pool
    }

    /// The table: how many names, and where each ends in the pool.
    pub fn table(&self) -> &[u32] {
        &self.table
    }

    /// How many names are held.
    pub fn len(&self) -> usize {
        self.table[0] as usize
    }

    /// Are there none?
    pub fn is_empty(&self) -> bool {
        self.len() == 0
    }

    /// Enters a name, or finds it.
    ///
    /// # Errors
    /// [`Refusal::NameLength`], then [`Refusal::NoRoom`] of a new name; the table is then as it was.
    pub fn enter(&mut self, name: &[u8]) -> Result<Entered, Refusal> {
        let t = said(raw::enter(&mut self.pool, &mut self.table, name))?;
        Ok(Entered { number: t.value, new: t.more == 1 })
    }

    /// The bytes of the name with this number.
    ///
    /// # Errors
    /// [`Refusal::NoRoom`] where no name has it.
    pub fn name(&self, number: u32) -> Result<&[u8], Refusal> {
        let t = said(raw::name_of(&self.pool, &self.table, number))?;
        let start = t.value as usize;
        Ok(&self.pool[start..start + t.more as usize])
    }

    /// Keeps the names that these sets use (back to back, with their lengths in records), and renumbers the sets. Gives the count of names kept. Numbers
    /// from before the call mean nothing outside these sets.
    ///
    /// # Errors
    /// [`Refusal::TooLarge`] of over 64 sets, or one of over 2,048 records; then [`Refusal::Malformed`] of a set, or lengths that don't add up. Nothing changes then.
    pub fn compact(&mut self, sets: &mut [u32], lengths: &[u32]) -> Result<usize, Refusal> {
        said(raw::compact(&mut self.pool, &mut self.table, sets, lengths)).map(|t| t.value as usize)
    }

    /// Is it a set of constraints over these names?
    ///
    /// # Errors
    /// [`Refusal::TooLarge`] of over 2,048 records, then [`Refusal::Malformed`].
    pub fn check_set(&self, words: &[u32]) -> Result<(), Refusal> {
        good(raw::is_set(&self.pool, &self.table, words))
    }

    /// Is it one type over these names?
    ///
    /// # Errors
    /// As [`NameTable::check_set`].
    pub fn check_type(&self, words: &[u32]) -> Result<(), Refusal> {
        good(raw::is_type(&self.pool, &self.table, words))
    }

    /// Is it a scheme over these names?
    ///
    /// # Errors
    /// As [`NameTable::check_set`].
    pub fn check_scheme(&self, words: &[u32]) -> Result<(), Refusal> {
        good(raw::is_scheme(&self.pool, &self.table, words))
    }

    /// Are these bindings over these names?
    ///
    /// # Errors
    /// As [`NameTable::check_set`].
    pub fn check_bindings(&self, words: &[u32]) -> Result<(), Refusal> {
        good(raw::is_bindings(&self.pool, &self.table, words))
    }

    /// Does a type contain the variable of this name or, if asked, the parameter?
    ///
    /// # Errors
    /// [`Refusal::TooLarge`], [`Refusal::Malformed`] (of the type, or of a number that no name has), [`Refusal::Mixed`], in this order.
    pub fn contains(&self, words: &[u32], name: u32, parameters: bool) -> Result<bool, Refusal> {
        said(raw::contains(&self.pool, &self.table, words, name, parameters)).map(|t| t.value == 1)
    }

    /// Has a type no variable and no parameter?
    ///
    /// # Errors
    /// [`Refusal::TooLarge`], [`Refusal::Malformed`], [`Refusal::Mixed`], in this order.
    pub fn closed(&self, words: &[u32]) -> Result<bool, Refusal> {
        said(raw::closed(&self.pool, &self.table, words)).map(|t| t.value == 1)
    }

    /// The most rounds that solving a set can take.
    ///
    /// # Errors
    /// As [`NameTable::check_set`].
    pub fn ceiling(&self, set: &[u32]) -> Result<u32, Refusal> {
        said(raw::ceiling(&self.pool, &self.table, set)).map(|t| t.more)
    }

    /// A set as text, a line a constraint.
    ///
    /// ```
    /// use shupkelen::{kind, record, NameTable, Refusal};
    /// let mut names = NameTable::new();
    /// let x = names.enter(b"x")?.number;
    /// let set = [record(kind::IS_DIMENSION, 2, 0, 0, 0), record(kind::VARIABLE, 1, x, 0, 0)].concat();
    /// assert_eq!(names.write_text(&set)?, b"?x: DType\n");
    /// # Ok::<(), Refusal>(())
    /// ```
    ///
    /// # Errors
    /// As [`NameTable::check_set`].
    pub fn write_text(&self, set: &[u32]) -> Result<Vec<u8>, Refusal> {
        let mut text = vec![0; TEXT_BYTES];
        let t = said(raw::write_text(&self.pool, &self.table, set, &mut text))?;
        text.truncate(t.value as usize);
        Ok(text)
    }

    /// What is well formed of a damaged set file.
    ///
    /// # Errors
    /// [`Refusal::TooLarge`] of over 2,048 whole records.
    pub fn rescue(&self, file: &[u8]) -> Result<Rescued, Refusal> {
        let mut kept = vec![0; KEPT_BYTES];
        let mut skipped = vec![0; SKIPPED_WORDS];
        let t = said(raw::rescue(&self.pool, &self.table, file, &mut kept, &mut skipped))?;
        kept.truncate(t.value as usize * 16);
        skipped.truncate(t.more as usize);
        Ok(Rescued { kept, skipped })
    }
}

/// What was rescued of a damaged set file.
#[derive(Clone, Debug, PartialEq, Eq)]
pub struct Rescued {
    /// The records that are kept, as the file has them: a set.
    pub kept: Vec<u8>,
    /// The places, in records, of those that are not, in their order.
    pub skipped: Vec<u32>,
}

/// A variable, and the place, in records, of its type in a list: what the judge is asked about.
#[derive(Clone, Copy, Debug, PartialEq, Eq)]
pub struct Entry {
    /// The variable's number.
    pub variable: u32,
    /// The place of its type.
    pub place: u32,
}

/// What solving a set gives: bindings, bounds, and the completed rounds.
///
/// Solving alone doesn't say that the bindings make the constraints true where a variable that stands in a product is bound to a type that is no dimension: [`Solver::confirm`]
/// answers nothing then.
#[derive(Clone, Debug, PartialEq, Eq)]
pub struct Solution {
    bindings: Vec<u32>,
    bounds: Vec<u32>,
    /// The completed rounds.
    pub rounds: u32,
}

impl Solution {
    /// The records of the bindings, in the order in which they were made.
    pub fn binding_records(&self) -> &[u32] {
        &self.bindings
    }

    /// The records of the bounds, by the bytes of their names.
    pub fn bound_records(&self) -> &[u32] {
        &self.bounds
    }

    /// The bindings as names with types. The table is the one that the set was solved over.
    ///
    /// # Errors
    /// [`Refusal::Malformed`] over a table that hasn't these names.
    pub fn bindings(&self, names: &NameTable) -> Result<Vec<Binding>, Refusal> {
        names.bindings_from(&self.bindings)
    }

    /// The names that stand for dimensions.
    ///
    /// # Errors
    /// [`Refusal::NoRoom`] over a table that hasn't these names.
    pub fn bounds(&self, names: &NameTable) -> Result<Vec<Name>, Refusal> {
        self.bounds.chunks(4).map(|r| names.name(r[1]).map(Name::from)).collect()
    }

    /// The bindings as the judge takes them: their places are places in [`Solution::binding_records`].
    pub fn entries(&self) -> Vec<Entry> {
        let mut entries = Vec::new();
        let mut at = 0;
        while let Some(&[head, variable]) = self.bindings.get(at * 4..at * 4 + 2).and_then(|w| w.first_chunk()) {
            entries.push(Entry { variable, place: at as u32 + 1 });
            at += (head / 65_536) as usize;
        }
        entries
    }
}

/// Why solving gave no solution, after how many rounds, and, where it is [`Refusal::Unsolved`], the constraints that remain.
#[derive(Clone, Debug, PartialEq, Eq)]
pub struct Stopped {
    /// Why.
    pub refusal: Refusal,
    /// The completed rounds.
    pub rounds: u32,
    /// The records of what remains; none where it is another refusal.
    pub remaining: Vec<u32>,
}

impl fmt::Display for Stopped {
    fn fmt(&self, f: &mut fmt::Formatter<'_>) -> fmt::Result {
        let rounds = if self.rounds == 1 { "round" } else { "rounds" };
        write!(f, "{}, after {} {rounds}", self.refusal, self.rounds)
    }
}

impl Error for Stopped {}

impl From<Stopped> for Refusal {
    fn from(s: Stopped) -> Refusal {
        s.refusal
    }
}

/// A sheet that was read: the records of its set, how many constraints they are, and how many names were new.
#[derive(Clone, Debug, PartialEq, Eq)]
pub struct Sheet {
    /// The records of its set.
    pub records: Vec<u32>,
    /// How many constraints it has.
    pub constraints: u32,
    /// How many of its names were new.
    pub new_names: u32,
}

/// Why a sheet was not read, with the line, counted from 1, and the column, counted in bytes from 1; 0 and 0 where no line is at fault.
#[derive(Clone, Copy, Debug, PartialEq, Eq)]
pub struct Unread {
    /// Why.
    pub refusal: Refusal,
    /// The line.
    pub line: u32,
    /// The column.
    pub column: u32,
}

impl fmt::Display for Unread {
    fn fmt(&self, f: &mut fmt::Formatter<'_>) -> fmt::Result {
        write!(f, "line {}, column {}: {}", self.line, self.column, self.refusal)
    }
}

impl Error for Unread {}

impl From<Unread> for Refusal {
    fn from(u: Unread) -> Refusal {
        u.refusal
    }
}

/// What a constraint is, when it is added.
#[derive(Clone, Copy, Debug, PartialEq, Eq)]
pub enum Added {
    /// It is true whatever its names stand for; it isn't stored.
    Satisfied,
    /// Nothing makes it true, except for structs whose fields differ; it is stored.
    Violated,
    /// It depends; it is stored.
    Unknown,
}

/// The result and the work buffer of the calls that write records.
///
/// ```
/// use shupkelen::{records_of, Constraint, NameTable, Refusal, Solver, Type};
/// let mut names = NameTable::new();
/// // 'list of x = x' has no solution
/// let x = Type::Variable("x".into());
/// let set = records_of(&[Constraint::Equal(Type::List(Box::new(x.clone())), x)], &mut names)?;
/// let stopped = Solver::new().solve(&names, &set).unwrap_err();
/// assert_eq!(stopped.refusal, Refusal::Unsolved);
/// assert_eq!(stopped.remaining, set);
/// # Ok::<(), Refusal>(())
/// ```
#[derive(Clone)]
pub struct Solver {
    result: Vec<u32>,
    work: Vec<u32>,
}

impl fmt::Debug for Solver {
    fn fmt(&self, f: &mut fmt::Formatter<'_>) -> fmt::Result {
        f.debug_struct("Solver").finish_non_exhaustive()
    }
}

impl Default for Solver {
    fn default() -> Self {
        Solver::new()
    }
}

impl Solver {
    /// New buffers.
    pub fn new() -> Self {
        Solver { result: vec![0; LIST_WORDS], work: vec![0; WORK_WORDS] }
    }

    /// What a call said of a set, whose answer stands at the front of the result buffer.
    fn solution(&self, t: raw::Told, bounds: u32, rounds: u32) -> Result<Solution, Stopped> {
        let (bindings, rest) = self.result.split_at(t.value as usize * 4);
        match good(t.refusal) {
            Ok(()) => Ok(Solution { bindings: bindings.to_vec(), bounds: rest[..bounds as usize * 4].to_vec(), rounds }),
            Err(refusal) => Err(Stopped { refusal, rounds, remaining: bindings.to_vec() }),
        }
    }

    /// Solves a set. Whoever ships by the answer asks [`Solver::confirm`]: an accepted answer makes every constraint true where no variable that stands in a product is bound
    /// to anything but a dimension or a variable, and this call doesn't test that.
    ///
    /// # Errors
    /// [`Refusal::TooLarge`], [`Refusal::Malformed`], [`Refusal::Mixed`] at entry, in this order; then [`Refusal::Unsolved`] with what remains, or
    /// [`Refusal::NotDimension`], [`Refusal::OutOfRange`], [`Refusal::TooLarge`], whichever is met first.
    pub fn solve(&mut self, names: &NameTable, set: &[u32]) -> Result<Solution, Stopped> {
        let t = raw::solve(&names.pool, &names.table, set, &mut self.result, &mut self.work);
        self.solution(t, t.more, t.rounds)
    }

    /// Solves a set and lets the judge confirm the answer: what is answered makes every constraint true, with all bindings put in at once, in exact arithmetic.
    /// Two structs of one name and the same arguments are the same type there, whatever fields they have.
    ///
    /// ```
    /// use shupkelen::{NameTable, Refusal, Solver};
    /// let (mut names, mut solver) = (NameTable::new(), Solver::new());
    /// // solving accepts this: x becomes boolean, which is no dimension
    /// let sheet = solver.read_text(&mut names, b"[?x * ?y] ~ [?x * ?z]\n?x ~ Bool\n")?;
    /// assert!(solver.solve(&names, &sheet.records).is_ok());
    /// assert_eq!(solver.confirm(&names, &sheet.records).unwrap_err().refusal, Refusal::NotConfirmed);
    /// # Ok::<(), shupkelen::Unread>(())
    /// ```
    ///
    /// # Errors
    /// As [`Solver::solve`]; then [`Refusal::NotConfirmed`] where the judge says no, or the judge's [`Refusal::OutOfRange`] or [`Refusal::TooLarge`].
    pub fn confirm(&mut self, names: &NameTable, set: &[u32]) -> Result<Solution, Stopped> {
        let t = raw::confirm(&names.pool, &names.table, set, &mut self.result, &mut self.work);
        self.solution(t, t.more, t.rounds)
    }

    /// The second engine, for sets of equal-scalar constraints over few names: the bindings. It counts no rounds.
    ///
    /// # Errors
    /// [`Refusal::TooLarge`], [`Refusal::Malformed`], [`Refusal::Mixed`] as [`Solver::solve`]; [`Refusal::TooLarge`] of a set that it doesn't take: another constraint, over 24
    /// variables, over 24 other names, over 24 rows; then [`Refusal::Unsolved`] with what remains, or [`Refusal::OutOfRange`].
    pub fn eliminate(&mut self, names: &NameTable, set: &[u32]) -> Result<Solution, Stopped> {
        let t = raw::eliminate(&names.pool, &names.table, set, &mut self.result, &mut self.work);
        self.solution(t, 0, 0)
    }

    /// Is this a solution of the set: does it make every constraint true, put in at once, in exact arithmetic? The entries' types stand in `types`; [`Solution::entries`] has those
    /// of an answer.
    ///
    /// # Errors
    /// [`Refusal::TooLarge`], [`Refusal::Malformed`] (of an entry's number that no name has, too), [`Refusal::Mixed`] at entry; then the first [`Refusal::OutOfRange`] or
    /// [`Refusal::TooLarge`] that is met.
    pub fn judge(&mut self, names: &NameTable, set: &[u32], entries: &[Entry], types: &[u32], bounds: &[u32]) -> Result<bool, Refusal> {
        let pairs: Vec<u32> = entries.iter().flat_map(|e| [e.variable, e.place]).collect();
        said(raw::judge(&names.pool, &names.table, set, &pairs, types, bounds, &mut self.work)).map(|t| t.value == 1)
    }

    /// Reads a sheet as a set and enters its new names.
    ///
    /// ```
    /// use shupkelen::{NameTable, Refusal, Solver};
    /// let (mut names, mut solver) = (NameTable::new(), Solver::new());
    /// let sheet = solver.read_text(&mut names, b"?x ~ Bool\n?y: DType\n")?;
    /// assert_eq!((sheet.constraints, sheet.new_names), (2, 2));
    /// assert_eq!(names.write_text(&sheet.records).unwrap(), b"?x ~ Bool\n?y: DType\n");
    /// let unread = solver.read_text(&mut names, b"?new ~ Bool\n?: DType").unwrap_err();
    /// assert_eq!((unread.refusal, unread.line, unread.column), (Refusal::NameLength, 2, 2));
    /// assert_eq!(names.len(), 2);
    /// # Ok::<(), shupkelen::Unread>(())
    /// ```
    ///
    /// # Errors
    /// Of the first bad line [`Refusal::NotGrammar`], else the leftmost of [`Refusal::Malformed`], [`Refusal::NameLength`], [`Refusal::NoRoom`], [`Refusal::OutOfRange`],
    /// [`Refusal::TooLarge`]. The names are then as they were.
    pub fn read_text(&mut self, names: &mut NameTable, text: &[u8]) -> Result<Sheet, Unread> {
        let t = raw::read_text(&mut names.pool, &mut names.table, text, &mut self.result, &mut self.work);
        match good(t.refusal) {
            Ok(()) => Ok(Sheet { records: self.result[..t.value as usize * 4].to_vec(), constraints: t.more, new_names: t.rounds }),
            Err(refusal) => Err(Unread { refusal, line: t.value, column: t.more }),
        }
    }

    /// The type of a calculation line's last step, as records. Steps are four words each ([`step`]); `lines` has the places of the earlier lines' types in `types`;
    /// `lent` are numbers of names for the steps, one each or more.
    ///
    /// ```
    /// use shupkelen::{kind, record, step, NameTable, Refusal, Solver, Type};
    /// let (mut names, mut solver) = (NameTable::new(), Solver::new());
    /// let km = names.enter(b"km")?.number;
    /// let lent: Vec<u32> = [&b"a"[..], b"b", b"c"].iter().map(|n| Ok(names.enter(n)?.number)).collect::<Result<_, Refusal>>()?;
    /// let types = [record(kind::DIMENSION, 2, 1, 0, 0), record(kind::BASE_FACTOR, 1, km, 1, 1), record(kind::BOOLEAN, 1, 0, 0, 0)].concat();
    /// // a constant in km times another
    /// let steps = [[step::CONSTANT, 0, 0, 0], [step::CONSTANT, 0, 0, 0], [step::MULTIPLY, 0, 0, 0]].concat();
    /// let squared = solver.check_line(&names, &steps, &types, &[], &lent)?;
    /// assert_eq!(names.type_from(&squared)?.to_string(), "[#km^(2)]");
    /// // and times a boolean
    /// let steps = [[step::CONSTANT, 2, 0, 0], [step::CONSTANT, 0, 0, 0], [step::MULTIPLY, 0, 0, 0]].concat();
    /// assert_eq!(solver.check_line(&names, &steps, &types, &[], &lent), Err(Refusal::NotDimension));
    /// # Ok::<(), Refusal>(())
    /// ```
    ///
    /// # Errors
    /// [`Refusal::ShortBuffer`] of fewer lent names than steps, [`Refusal::TooLarge`], [`Refusal::Malformed`], [`Refusal::Mixed`] of a name that isn't fresh, [`Refusal::NoRoom`]; then
    /// the solver's and the judge's, and [`Refusal::NotConfirmed`] where the judge says no.
    pub fn check_line(&mut self, names: &NameTable, steps: &[u32], types: &[u32], lines: &[u32], lent: &[u32]) -> Result<Vec<u32>, Refusal> {
        let t = raw::check_line(&names.pool, &names.table, steps, types, lines, lent, &mut self.result, &mut self.work);
        self.records(t)
    }

    fn records(&self, t: raw::Told) -> Result<Vec<u32>, Refusal> {
        said(t).map(|t| self.result[..t.value as usize * 4].to_vec())
    }

    /// A type with bindings put in.
    ///
    /// # Errors
    /// [`Refusal::TooLarge`], [`Refusal::Malformed`], [`Refusal::Mixed`] at entry; then [`Refusal::NotDimension`], [`Refusal::OutOfRange`], [`Refusal::TooLarge`].
    pub fn replace_in_type(&mut self, names: &NameTable, words: &[u32], bindings: &[u32]) -> Result<Vec<u32>, Refusal> {
        let t = raw::replace_in_type(&names.pool, &names.table, words, bindings, &mut self.result, &mut self.work);
        self.records(t)
    }

    /// A set with bindings put in.
    ///
    /// # Errors
    /// As [`Solver::replace_in_type`].
    pub fn replace_in_set(&mut self, names: &NameTable, set: &[u32], bindings: &[u32]) -> Result<Vec<u32>, Refusal> {
        let t = raw::replace_in_set(&names.pool, &names.table, set, bindings, &mut self.result, &mut self.work);
        self.records(t)
    }

    /// A scheme from a type and bounds, with handed names quantified.
    ///
    /// # Errors
    /// [`Refusal::TooLarge`], [`Refusal::Malformed`] (of a handed number that no name has, too), [`Refusal::Mixed`]; then [`Refusal::TooLarge`] of a scheme of over 2,048 records.
    pub fn quantify(&mut self, names: &NameTable, words: &[u32], bounds: &[u32], handed: &[u32]) -> Result<Vec<u32>, Refusal> {
        let t = raw::quantify(&names.pool, &names.table, words, bounds, handed, &mut self.result, &mut self.work);
        self.records(t)
    }

    /// A concrete scheme with all open names of its type quantified, and of the bounds those of names that the type contains; any other scheme is unchanged.
    ///
    /// # Errors
    /// As [`Solver::quantify`].
    pub fn generalise(&mut self, names: &NameTable, scheme: &[u32], bounds: &[u32]) -> Result<Vec<u32>, Refusal> {
        let t = raw::generalise(&names.pool, &names.table, scheme, bounds, &mut self.result, &mut self.work);
        self.records(t)
    }

    /// The type of a scheme, then its bounds, with handed names put back.
    ///
    /// # Errors
    /// [`Refusal::TooLarge`], [`Refusal::Malformed`], [`Refusal::Mixed`] as [`Solver::quantify`]; [`Refusal::WrongCount`] of another count of names than the scheme has, and of a
    /// concrete type; then [`Refusal::OutOfRange`], where powers of one name are added.
    pub fn instantiate(&mut self, names: &NameTable, scheme: &[u32], handed: &[u32]) -> Result<Vec<u32>, Refusal> {
        let t = raw::instantiate(&names.pool, &names.table, scheme, handed, &mut self.result, &mut self.work);
        self.records(t)
    }

    /// The numbers of a type's variables and, if asked, parameters, by the bytes of their names.
    ///
    /// # Errors
    /// [`Refusal::TooLarge`], [`Refusal::Malformed`], [`Refusal::Mixed`], in this order.
    pub fn variables(&mut self, names: &NameTable, words: &[u32], parameters: bool) -> Result<Vec<u32>, Refusal> {
        let t = said(raw::variables(&names.pool, &names.table, words, parameters, &mut self.result))?;
        Ok(self.result[..t.value as usize].to_vec())
    }
}

/// A set of constraints that grows, up to 2,048 records.
///
/// ```
/// use shupkelen::{Added, Constraint, ConstraintSet, NameTable, Refusal, Type};
/// let mut names = NameTable::new();
/// let mut set = ConstraintSet::new();
/// let same = Constraint::Equal(Type::Boolean, Type::Boolean).records(&mut names)?;
/// assert_eq!(set.add(&names, &same), Ok(Added::Satisfied));
/// assert!(set.words().is_empty());
/// # Ok::<(), Refusal>(())
/// ```
#[derive(Clone)]
pub struct ConstraintSet {
    buffer: Vec<u32>,
    count: usize,
}

impl fmt::Debug for ConstraintSet {
    fn fmt(&self, f: &mut fmt::Formatter<'_>) -> fmt::Result {
        f.debug_struct("ConstraintSet").field("records", &self.count).finish_non_exhaustive()
    }
}

impl Default for ConstraintSet {
    fn default() -> Self {
        ConstraintSet::new()
    }
}

impl ConstraintSet {
    /// No constraints.
    pub fn new() -> Self {
        ConstraintSet { buffer: vec![0; LIST_WORDS], count: 0 }
    }

    /// The records of the set.
    pub fn words(&self) -> &[u32] {
        &self.buffer[..self.count * 4]
    }

    /// Tests a constraint, and stores it unless it is satisfied.
    ///
    /// # Errors
    /// [`Refusal::Malformed`] of what isn't one constraint over these names; [`Refusal::TooLarge`] where it has no room. The set is then as it was.
    pub fn add(&mut self, names: &NameTable, constraint: &[u32]) -> Result<Added, Refusal> {
        let t = said(raw::add(&names.pool, &names.table, &mut self.buffer, self.count, constraint))?;
        self.count = t.more as usize;
        Ok(match t.value {
            1 => Added::Satisfied,
            2 => Added::Violated,
            _ => Added::Unknown,
        })
    }
}

/// Solves up to [`SETS`] sets over one table; each is answered as [`Solver::solve`] answers it by itself, and each answer is worth what that one is: where somebody relies on one,
/// ask [`Solver::confirm`] of its set.
///
/// ```
/// use shupkelen::{solve_all, NameTable, Refusal};
/// let names = NameTable::new();
/// let answers = solve_all(&names, &[&[], &[7]])?;
/// assert!(answers[0].is_ok());
/// assert_eq!(answers[1].as_ref().unwrap_err().refusal, Refusal::Malformed);
/// # Ok::<(), Refusal>(())
/// ```
///
/// # Errors
/// [`Refusal::TooLarge`] of over [`SETS`] sets; nothing is solved then.
pub fn solve_all(names: &NameTable, sets: &[&[u32]]) -> Result<Vec<Result<Solution, Stopped>>, Refusal> {
    if sets.len() > SETS {
        return Err(Refusal::TooLarge);
    }
    // a list that is too long or torn would spoil the others' places: it is refused here, as by itself, and the empty set stands in its place
    let own: Vec<Option<Refusal>> = sets.iter().map(|s| refused_alone(s)).collect();
    let sets: Vec<&[u32]> = sets.iter().zip(&own).map(|(s, r)| if r.is_some() { &[][..] } else { s }).collect();
    let lengths: Vec<u32> = sets.iter().map(|s| (s.len() / 4) as u32).collect();
    let mut result = vec![0; LIST_WORDS * sets.len()];
    let mut answers = vec![0; 4 * sets.len()];
    let mut work = vec![0; WORK_WORDS];
    said(raw::solve_all(&names.pool, &names.table, &sets.concat(), &lengths, &mut result, &mut answers, &mut work))?;
    let mut rest = &result[..];
    let mut take = |records: u32| {
        let (front, behind) = rest.split_at(records as usize * 4);
        rest = behind;
        front.to_vec()
    };
    let answers = answers.chunks(4).map(|a| {
        let (bindings, bounds, rounds) = (take(a[2]), take(a[3]), a[1]);
        match good(a[0]) {
            Ok(()) => Ok(Solution { bindings, bounds, rounds }),
            Err(refusal) => Err(Stopped { refusal, rounds, remaining: bindings }),
        }
    });
    let stopped = |refusal| Err(Stopped { refusal, rounds: 0, remaining: Vec::new() });
    Ok(answers.zip(own).map(|(answer, own)| own.map_or(answer, stopped)).collect())
}

/// Why a list can't be a set, whatever its records are.
fn refused_alone(set: &[u32]) -> Option<Refusal> {
    if set.len() > LIST_WORDS {
        Some(Refusal::TooLarge)
    } else if set.len() % 4 != 0 {
        Some(Refusal::Malformed)
    } else {
        None
    }
}
