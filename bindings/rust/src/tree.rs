//! Types and constraints as trees, with names in place of numbers. They become records and come back, and print as the text of the grammar (docs/GRAMMAR.md).
use std::fmt;

use crate::{kind, record, NameTable, Refusal, NESTED};

/// A name: 1 to 48 bytes of any kind. It prints as in a sheet: letters, digits, `_` and bytes from 128 on as they are, every other byte as `\` and two hex digits.
#[derive(Clone, Debug, PartialEq, Eq, PartialOrd, Ord, Hash)]
pub struct Name(Vec<u8>);

impl Name {
    /// Its bytes.
    pub fn as_bytes(&self) -> &[u8] {
        &self.0
    }
}

impl From<&[u8]> for Name {
    fn from(bytes: &[u8]) -> Self {
        Name(bytes.to_vec())
    }
}

impl From<&str> for Name {
    fn from(text: &str) -> Self {
        Name(text.as_bytes().to_vec())
    }
}

impl fmt::Display for Name {
    fn fmt(&self, f: &mut fmt::Formatter<'_>) -> fmt::Result {
        // runs of plain bytes at once: a character of UTF-8 stays whole. What isn't UTF-8 can't stand for itself in a string, so it is escaped
        for chunk in self.0.utf8_chunks() {
            for c in chunk.valid().chars() {
                if c.is_ascii() && !c.is_ascii_alphanumeric() && c != '_' {
                    write!(f, "\\{:02x}", c as u32)?;
                } else {
                    write!(f, "{c}")?;
                }
            }
            for b in chunk.invalid() {
                write!(f, "\\{b:02x}")?;
            }
        }
        Ok(())
    }
}

/// A power: a fraction in lowest terms, whose numerator isn't 0.
#[derive(Clone, Copy, Debug, PartialEq, Eq, Hash)]
pub struct Power {
    /// From -2,147,483,647 to 2,147,483,647.
    pub numerator: i32,
    /// From 1 to 2,147,483,647.
    pub denominator: u32,
}

impl From<i32> for Power {
    fn from(numerator: i32) -> Self {
        Power { numerator, denominator: 1 }
    }
}

/// What stands in a factor.
#[derive(Clone, Copy, Debug, PartialEq, Eq, PartialOrd, Ord, Hash)]
pub enum Base {
    /// A variable, `?x`.
    Variable,
    /// A parameter, `!x`.
    Parameter,
    /// A base dimension, `#x`.
    Dimension,
}

/// A named power in a dimension.
#[derive(Clone, Debug, PartialEq, Eq, Hash)]
pub struct Factor {
    /// What the name is.
    pub base: Base,
    /// The name.
    pub name: Name,
    /// Its power.
    pub power: Power,
}

impl fmt::Display for Factor {
    fn fmt(&self, f: &mut fmt::Formatter<'_>) -> fmt::Result {
        let mark = match self.base {
            Base::Variable => '?',
            Base::Parameter => '!',
            Base::Dimension => '#',
        };
        write!(f, "{mark}{}", self.name)?;
        match self.power {
            Power { numerator: 1, denominator: 1 } => Ok(()),
            Power { numerator, denominator: 1 } => write!(f, "^({numerator})"),
            Power { numerator, denominator } => write!(f, "^({numerator}/{denominator})"),
        }
    }
}

/// A type.
#[derive(Clone, Debug, PartialEq, Eq, Hash)]
pub enum Type {
    /// A variable.
    Variable(Name),
    /// A parameter.
    Parameter(Name),
    /// A product of powers; no factors: the scalar.
    Dimension(Vec<Factor>),
    /// Yes or no.
    Boolean,
    /// Text.
    String,
    /// Date and time.
    DateTime,
    /// Parameters' types, and the type that is returned.
    Function(Vec<Type>, Box<Type>),
    /// A struct: its name, the types of its arguments, and its fields, each with its type.
    Struct(Name, Vec<Type>, Vec<(Name, Type)>),
    /// A list of elements of one type.
    List(Box<Type>),
}

fn separated<T>(f: &mut fmt::Formatter<'_>, items: &[T], by: &str, one: impl Fn(&mut fmt::Formatter<'_>, &T) -> fmt::Result) -> fmt::Result {
    for (i, item) in items.iter().enumerate() {
        if i > 0 {
            f.write_str(by)?;
        }
        one(f, item)?;
    }
    Ok(())
}

fn write_factors(f: &mut fmt::Formatter<'_>, factors: &[Factor]) -> fmt::Result {
    f.write_str("[")?;
    separated(f, factors, " * ", |f, x| write!(f, "{x}"))?;
    f.write_str("]")
}

fn write_types(f: &mut fmt::Formatter<'_>, types: &[Type]) -> fmt::Result {
    separated(f, types, ", ", |f, t| write!(f, "{t}"))
}

impl fmt::Display for Type {
    fn fmt(&self, f: &mut fmt::Formatter<'_>) -> fmt::Result {
        match self {
            Type::Variable(x) => write!(f, "?{x}"),
            Type::Parameter(x) => write!(f, "!{x}"),
            Type::Dimension(factors) => write_factors(f, factors),
            Type::Boolean => f.write_str("Bool"),
            Type::String => f.write_str("String"),
            Type::DateTime => f.write_str("DateTime"),
            Type::Function(parameters, returns) => {
                f.write_str("Fn[(")?;
                write_types(f, parameters)?;
                write!(f, ") -> {returns}]")
            }
            Type::List(element) => write!(f, "List<{element}>"),
            Type::Struct(name, arguments, fields) => {
                write!(f, "@{name}")?;
                if !arguments.is_empty() {
                    f.write_str("<")?;
                    write_types(f, arguments)?;
                    f.write_str(">")?;
                }
                if !fields.is_empty() {
                    f.write_str("{")?;
                    separated(f, fields, ", ", |f, (name, t)| write!(f, "{name}: {t}"))?;
                    f.write_str("}")?;
                }
                Ok(())
            }
        }
    }
}

/// A constraint; it prints as a line of a sheet, without the line feed.
#[derive(Clone, Debug, PartialEq, Eq, Hash)]
pub enum Constraint {
    /// Both types are the same.
    Equal(Type, Type),
    /// The type is a dimension.
    IsDimension(Type),
    /// The product is the scalar.
    EqualScalar(Vec<Factor>),
    /// The struct type, first, has a field of this name, of this type.
    HasField(Type, Name, Type),
}

impl fmt::Display for Constraint {
    fn fmt(&self, f: &mut fmt::Formatter<'_>) -> fmt::Result {
        match self {
            Constraint::Equal(left, right) => write!(f, "{left} ~ {right}"),
            Constraint::IsDimension(t) => write!(f, "{t}: DType"),
            Constraint::EqualScalar(factors) => {
                write_factors(f, factors)?;
                f.write_str(" = Scalar")
            }
            Constraint::HasField(of, name, t) => write!(f, "HasField({of}, \"{name}\", {t})"),
        }
    }
}

/// A binding of an answer: the variable's name, and the type that it stands for. It prints as a line of a sheet.
#[derive(Clone, Debug, PartialEq, Eq, Hash)]
pub struct Binding {
    /// The variable.
    pub name: Name,
    /// What it is bound to.
    pub to: Type,
}

impl fmt::Display for Binding {
    fn fmt(&self, f: &mut fmt::Formatter<'_>) -> fmt::Result {
        write!(f, "?{} ~ {}", self.name, self.to)
    }
}

// ---- Into records ----

/// Records that grow, over a table that names are entered into.
struct Writer<'a> {
    names: &'a mut NameTable,
    words: Vec<u32>,
}

impl Writer<'_> {
    fn number(&mut self, name: &Name) -> Result<u32, Refusal> {
        Ok(self.names.enter(name.as_bytes())?.number)
    }

    /// Puts a record in front of what `parts` puts, whose length is known then.
    fn put(&mut self, kind: u32, [a, b, c]: [u32; 3], parts: impl FnOnce(&mut Self) -> Result<(), Refusal>) -> Result<(), Refusal> {
        let start = self.words.len();
        self.words.extend([0, a, b, c]);
        parts(self)?;
        let length = (self.words.len() - start) / 4;
        // a set has at most 2,048 records
        if length > 2048 {
            return Err(Refusal::TooLarge);
        }
        self.words[start] = record(kind, length as u32, a, b, c)[0];
        Ok(())
    }

    fn leaf(&mut self, kind: u32, words: [u32; 3]) -> Result<(), Refusal> {
        self.put(kind, words, |_| Ok(()))
    }

    fn factors(&mut self, factors: &[Factor]) -> Result<(), Refusal> {
        let mut sorted: Vec<&Factor> = factors.iter().collect();
        sorted.sort_by(|f, g| (f.base, &f.name).cmp(&(g.base, &g.name)));
        self.put(kind::DIMENSION, [factors.len() as u32, 0, 0], |w| {
            for f in sorted {
                let kind = match f.base {
                    Base::Variable => kind::VARIABLE_FACTOR,
                    Base::Parameter => kind::PARAMETER_FACTOR,
                    Base::Dimension => kind::BASE_FACTOR,
                };
                let name = w.number(&f.name)?;
                w.leaf(kind, [name, f.power.numerator as u32, f.power.denominator])?;
            }
            Ok(())
        })
    }

    fn types(&mut self, types: &[Type], deep: usize) -> Result<(), Refusal> {
        types.iter().try_for_each(|t| self.one(t, deep))
    }

    /// A type that may be nested so deep.
    fn one(&mut self, t: &Type, deep: usize) -> Result<(), Refusal> {
        let inside = deep.checked_sub(1).ok_or(Refusal::Malformed)?;
        match t {
            Type::Variable(x) => {
                let name = self.number(x)?;
                self.leaf(kind::VARIABLE, [name, 0, 0])
            }
            Type::Parameter(x) => {
                let name = self.number(x)?;
                self.leaf(kind::PARAMETER, [name, 0, 0])
            }
            Type::Dimension(factors) => self.factors(factors),
            Type::Boolean => self.leaf(kind::BOOLEAN, [0; 3]),
            Type::String => self.leaf(kind::STRING, [0; 3]),
            Type::DateTime => self.leaf(kind::DATETIME, [0; 3]),
            Type::Function(parameters, returns) => self.put(kind::FUNCTION, [parameters.len() as u32, 0, 0], |w| {
                w.types(parameters, inside)?;
                w.one(returns, inside)
            }),
            Type::List(element) => self.put(kind::LIST, [0; 3], |w| w.one(element, inside)),
            Type::Struct(name, arguments, fields) => {
                let name = self.number(name)?;
                self.put(kind::STRUCT, [name, arguments.len() as u32, fields.len() as u32], |w| {
                    w.types(arguments, inside)?;
                    w.fields(fields, inside)
                })
            }
        }
    }

    fn fields(&mut self, fields: &[(Name, Type)], deep: usize) -> Result<(), Refusal> {
        let mut sorted: Vec<&(Name, Type)> = fields.iter().collect();
        sorted.sort_by(|f, g| f.0.cmp(&g.0));
        for (name, t) in sorted {
            let name = self.number(name)?;
            self.put(kind::FIELD, [name, 0, 0], |w| w.one(t, deep))?;
        }
        Ok(())
    }

    fn constraint(&mut self, c: &Constraint) -> Result<(), Refusal> {
        match c {
            Constraint::Equal(left, right) => self.put(kind::EQUAL, [0; 3], |w| {
                w.one(left, NESTED)?;
                w.one(right, NESTED)
            }),
            Constraint::IsDimension(t) => self.put(kind::IS_DIMENSION, [0; 3], |w| w.one(t, NESTED)),
            Constraint::EqualScalar(factors) => self.put(kind::EQUAL_SCALAR, [0; 3], |w| w.factors(factors)),
            Constraint::HasField(of, name, t) => {
                let name = self.number(name)?;
                self.put(kind::HAS_FIELD, [name, 0, 0], |w| {
                    w.one(of, NESTED)?;
                    w.one(t, NESTED)
                })
            }
        }
    }
}

/// Records that are written over a table. Where something is refused, the table is as it was.
fn written(
    names: &mut NameTable,
    put: impl FnOnce(&mut Writer) -> Result<(), Refusal>,
    check: impl FnOnce(&NameTable, &[u32]) -> Result<(), Refusal>,
) -> Result<Vec<u32>, Refusal> {
    let mut entered = names.clone();
    let mut writer = Writer { names: &mut entered, words: Vec::new() };
    put(&mut writer)?;
    let words = writer.words;
    check(&entered, &words)?;
    *names = entered;
    Ok(words)
}

impl Type {
    /// Its records over a table, into which its names are entered. Factors and fields may stand in any order.
    ///
    /// # Errors
    /// [`Refusal::Malformed`] where it is nested over 64 deep, a factor or a field stands twice, or a power isn't one; [`Refusal::NameLength`], [`Refusal::NoRoom`] of a name;
    /// [`Refusal::TooLarge`] over 2,048 records. The table is then as it was.
    pub fn records(&self, names: &mut NameTable) -> Result<Vec<u32>, Refusal> {
        written(names, |w| w.one(self, NESTED), |names, words| names.check_type(words))
    }
}

impl Constraint {
    /// Its records over a table, into which its names are entered. Factors and fields may stand in any order.
    ///
    /// # Errors
    /// As [`Type::records`].
    pub fn records(&self, names: &mut NameTable) -> Result<Vec<u32>, Refusal> {
        records_of(std::slice::from_ref(self), names)
    }
}

/// The records of a set of constraints over a table, into which its names are entered.
///
/// ```
/// use shupkelen::{records_of, Constraint, NameTable, Type};
/// let mut names = NameTable::new();
/// let set = records_of(&[Constraint::Equal(Type::Variable("x".into()), Type::Boolean)], &mut names)?;
/// assert_eq!(names.write_text(&set)?, b"?x ~ Bool\n");
/// # Ok::<(), shupkelen::Refusal>(())
/// ```
///
/// # Errors
/// As [`Type::records`].
pub fn records_of(set: &[Constraint], names: &mut NameTable) -> Result<Vec<u32>, Refusal> {
    written(names, |w| set.iter().try_for_each(|c| w.constraint(c)), |names, words| names.check_set(words))
}

// ---- Back from records ----

/// Reads records that were checked, so that what is asked for is there.
struct Reader<'a> {
    names: &'a NameTable,
    words: &'a [u32],
}

impl Reader<'_> {
    fn next(&mut self) -> Option<[u32; 4]> {
        let (first, rest) = self.words.split_at_checked(4)?;
        self.words = rest;
        Some([first[0] % 65_536, first[1], first[2], first[3]])
    }

    fn name(&self, number: u32) -> Result<Name, Refusal> {
        Ok(Name::from(self.names.name(number)?))
    }

    fn factors(&mut self, count: u32) -> Result<Vec<Factor>, Refusal> {
        (0..count)
            .map(|_| {
                let [kind, name, numerator, denominator] = self.next().ok_or(Refusal::Malformed)?;
                let base = match kind {
                    kind::VARIABLE_FACTOR => Base::Variable,
                    kind::PARAMETER_FACTOR => Base::Parameter,
                    kind::BASE_FACTOR => Base::Dimension,
                    _ => return Err(Refusal::Malformed),
                };
                Ok(Factor { base, name: self.name(name)?, power: Power { numerator: numerator as i32, denominator } })
            })
            .collect()
    }

    fn types(&mut self, count: u32) -> Result<Vec<Type>, Refusal> {
        (0..count).map(|_| self.one()).collect()
    }

    fn field(&mut self) -> Result<(Name, Type), Refusal> {
        let [_, name, ..] = self.next().ok_or(Refusal::Malformed)?;
        Ok((self.name(name)?, self.one()?))
    }

    fn one(&mut self) -> Result<Type, Refusal> {
        let [kind, a, b, c] = self.next().ok_or(Refusal::Malformed)?;
        Ok(match kind {
            kind::VARIABLE => Type::Variable(self.name(a)?),
            kind::PARAMETER => Type::Parameter(self.name(a)?),
            kind::DIMENSION => Type::Dimension(self.factors(a)?),
            kind::BOOLEAN => Type::Boolean,
            kind::STRING => Type::String,
            kind::DATETIME => Type::DateTime,
            kind::FUNCTION => Type::Function(self.types(a)?, Box::new(self.one()?)),
            kind::STRUCT => {
                let arguments = self.types(b)?;
                let fields = (0..c).map(|_| self.field()).collect::<Result<_, _>>()?;
                Type::Struct(self.name(a)?, arguments, fields)
            }
            kind::LIST => Type::List(Box::new(self.one()?)),
            _ => return Err(Refusal::Malformed),
        })
    }

    fn constraint(&mut self, [kind, a, ..]: [u32; 4]) -> Result<Constraint, Refusal> {
        Ok(match kind {
            kind::EQUAL => Constraint::Equal(self.one()?, self.one()?),
            kind::IS_DIMENSION => Constraint::IsDimension(self.one()?),
            kind::EQUAL_SCALAR => {
                let [_, count, ..] = self.next().ok_or(Refusal::Malformed)?;
                Constraint::EqualScalar(self.factors(count)?)
            }
            kind::HAS_FIELD => Constraint::HasField(self.one()?, self.name(a)?, self.one()?),
            _ => return Err(Refusal::Malformed),
        })
    }
}

impl NameTable {
    /// A type from its records.
    ///
    /// # Errors
    /// As [`NameTable::check_type`].
    pub fn type_from(&self, words: &[u32]) -> Result<Type, Refusal> {
        self.check_type(words)?;
        Reader { names: self, words }.one()
    }

    /// A set's constraints from their records.
    ///
    /// # Errors
    /// As [`NameTable::check_set`].
    pub fn constraints_from(&self, set: &[u32]) -> Result<Vec<Constraint>, Refusal> {
        self.check_set(set)?;
        let mut reader = Reader { names: self, words: set };
        let mut constraints = Vec::new();
        while let Some(head) = reader.next() {
            constraints.push(reader.constraint(head)?);
        }
        Ok(constraints)
    }

    /// Bindings, as names with types, from their records.
    ///
    /// # Errors
    /// As [`NameTable::check_bindings`].
    pub fn bindings_from(&self, words: &[u32]) -> Result<Vec<Binding>, Refusal> {
        self.check_bindings(words)?;
        let mut reader = Reader { names: self, words };
        let mut bindings = Vec::new();
        while let Some([_, name, ..]) = reader.next() {
            bindings.push(Binding { name: reader.name(name)?, to: reader.one()? });
        }
        Ok(bindings)
    }
}
