//! A definition and the records of its data, in Rust's own types.

use crate::calls::{self, Exported, Imported, Matrix};
use crate::table::{self, column, header, kind, limit, line, usage};
use crate::{Correction, DefinitionError, FileFault, ImportFault, ReadError, RecordFault, Refusal, Text, Value};
use alloc::vec;
use alloc::vec::Vec;
use core::cmp::Ordering;
use core::fmt;
use core::hash::{Hash, Hasher};
use core::iter::FusedIterator;
use core::ops::{Range, RangeInclusive};

/// A definition that was read: its text, which is borrowed, and its table.
///
/// ```
/// use zarfolin::{Definition, Refusal};
/// let text = std::fs::read("../../examples/counter/survey.sss").unwrap();
/// let definition = Definition::read(&text)?;
/// assert_eq!(definition.variables().len(), 6);
///
/// let error = Definition::read(b"SSS VERSION 1.2").unwrap_err();
/// assert_eq!((error.refusal, error.place), (Refusal::Version, 12));
/// assert_eq!(error.to_string(), "byte 12: the version is not 1.1 (or, in XML, 1.2) [4]");
/// # Ok::<(), zarfolin::DefinitionError>(())
/// ```
#[derive(Clone)]
pub struct Definition<'t> {
    text: &'t [u8],
    table: Vec<i64>,
}

impl<'t> Definition<'t> {
    /// Reads a definition, of version 1.1 or in XML. It takes up to 270,000 bytes of stack.
    pub fn read(text: &'t [u8]) -> Result<Definition<'t>, DefinitionError> {
        let mut table = vec![0; limit::MAX_TABLE];
        let counts = calls::read_definition(text, &mut table)?;
        table.truncate(counts.table_length());
        table.shrink_to_fit();
        Ok(Definition { text, table })
    }

    /// The definition's text.
    pub fn text(&self) -> &'t [u8] {
        self.text
    }

    /// Whether it is one in XML: its texts then decode to UTF-8, and variables may have a use and a filter.
    pub fn is_xml(&self) -> bool {
        self.table[header::MARK] == table::MARK_XML
    }

    /// Its table, for [`calls`] and [`ffi`](crate::ffi).
    pub fn table(&self) -> &[i64] {
        &self.table
    }

    /// The least length of a record: the highest location that a variable has.
    pub fn record_length(&self) -> usize {
        self.table[header::RECORD] as usize
    }

    /// The variables, in the order of the definition.
    pub fn variables(&self) -> Variables<'_> {
        Variables { definition: self, rows: 0..self.table[header::VARIABLES] as usize }
    }

    /// The variable of a row, from 0.
    pub fn variable(&self, row: usize) -> Option<Variable<'_>> {
        self.variables().nth(row)
    }

    /// The records of a data file, in its order, sound or not. `judge` says whether they are.
    ///
    /// ```
    /// # let text = std::fs::read("../../examples/counter/survey.sss").unwrap();
    /// # let definition = zarfolin::Definition::read(&text).unwrap();
    /// use zarfolin::Value;
    /// let data = std::fs::read("../../examples/counter/survey.asc").unwrap();
    /// for record in definition.records(&data) {
    ///     let values = record.values()?;
    ///     for (variable, value) in values.iter() {
    ///         if let Ok(Value::Number(n)) = value {
    ///             println!("{} {} {n}", record.number(), variable.ident());
    ///         }
    ///     }
    /// }
    /// let last = definition.records(&data).last().unwrap();
    /// assert_eq!(last.number(), 4);
    /// assert_eq!(last.values()?.get(4), Some(Ok(Value::Text(b"Wien 1., Stadt"))));
    /// # Ok::<(), zarfolin::Refusal>(())
    /// ```
    pub fn records<'a>(&'a self, data: &'a [u8]) -> Records<'a> {
        Records { definition: self, data, from: 0, number: 0 }
    }

    /// Judges a whole data file: the count of its records, or its first fault.
    ///
    /// ```
    /// # let text = std::fs::read("../../examples/counter/survey.sss").unwrap();
    /// # let definition = zarfolin::Definition::read(&text).unwrap();
    /// # let mut data = std::fs::read("../../examples/counter/survey.asc").unwrap();
    /// assert_eq!(definition.judge(&data), Ok(4));
    /// data[40] = b'?';
    /// let fault = definition.judge(&data).unwrap_err();
    /// assert_eq!(fault.to_string(), "record 1, row 5, byte 40: the field has a byte that cannot stand there [241]");
    /// ```
    pub fn judge(&self, data: &[u8]) -> Result<u64, FileFault> {
        calls::judge_file(&self.table, data)
    }

    /// Judges one record, of whatever file.
    pub fn judge_record(&self, record: &[u8]) -> Result<(), RecordFault> {
        calls::judge_record(&self.table, record)
    }

    /// Writes one row's value into a record; no byte outside the row's value places changes.
    ///
    /// ```
    /// # let text = std::fs::read("../../examples/counter/survey.sss").unwrap();
    /// # let definition = zarfolin::Definition::read(&text).unwrap();
    /// use zarfolin::{Refusal, Value};
    /// let mut record = *b"  1/010---0/010400  12.50Bad Ischl     .1";
    /// definition.write(3, Value::Number(-275), &mut record)?;
    /// assert_eq!(&record, b"  1/010---0/010400 -02.75Bad Ischl     .1");
    /// assert_eq!(definition.write(3, Value::Truth(true), &mut record), Err(Refusal::Type));
    /// # Ok::<(), zarfolin::Refusal>(())
    /// ```
    pub fn write(&self, row: usize, value: Value, record: &mut [u8]) -> Result<(), Refusal> {
        calls::write_value(&self.table, row as u64, value, record)
    }

    /// Writes corrections into a record, in their order, and marks each: [`calls::correct`].
    pub fn correct(&self, corrections: &mut [Correction], record: &mut [u8]) -> Result<(), Refusal> {
        calls::correct(&self.table, corrections, record)
    }

    /// Gives a record its normal form, in place: every row written back as it reads, so that records that say the same have the same
    /// bytes, filler aside: [`calls::normal`].
    ///
    /// ```
    /// # let text = std::fs::read("../../examples/counter/survey.sss").unwrap();
    /// # let definition = zarfolin::Definition::read(&text).unwrap();
    /// let mut record = *b"  1/010---0/010400  12.50Bad Ischl     .1";
    /// definition.normal(&mut record)?;
    /// assert_eq!(&record, b" 01/010---0/010400 012.50Bad Ischl     .1");
    /// # Ok::<(), zarfolin::RecordFault>(())
    /// ```
    pub fn normal(&self, record: &mut [u8]) -> Result<(), RecordFault> {
        calls::normal(&self.table, record)
    }

    /// Mends a damaged data file into `out`, and lists what was changed: [`calls::mend`].
    pub fn mend(&self, data: &[u8], out: &mut [u8], list: &mut [[i64; 3]]) -> Result<(usize, usize), Refusal> {
        calls::mend(&self.table, data, out, list)
    }

    /// Writes a data file into `out` as a matrix of 64-bit floats: [`calls::matrix`].
    pub fn matrix(&self, data: &[u8], out: &mut [u8]) -> Result<Matrix, FileFault> {
        calls::matrix(&self.table, data, out)
    }

    /// Writes a data file into `out` as comma-separated text: [`calls::export`].
    pub fn export(&self, data: &[u8], out: &mut [u8]) -> Result<Exported, Refusal> {
        calls::export(self.text, &self.table, data, out)
    }

    /// Builds the records of comma-separated text into `out`: [`calls::import`].
    ///
    /// ```
    /// # let text = std::fs::read("../../examples/counter/survey.sss").unwrap();
    /// # let data = std::fs::read("../../examples/counter/survey.asc").unwrap();
    /// # let definition = zarfolin::Definition::read(&text).unwrap();
    /// let mut text = vec![0; 1000];
    /// let exported = definition.export(&data, &mut text).unwrap();
    /// let mut out = vec![0; 1000];
    /// let imported = definition.import(&text[..exported.length], &mut out)?;
    /// assert_eq!(imported.records, exported.records);
    /// for (built, original) in definition.records(&out[..imported.length]).zip(definition.records(&data)) {
    ///     assert!(built.values().unwrap().iter().map(|(_, value)| value).eq(original.values().unwrap().iter().map(|(_, value)| value)));
    /// }
    /// # Ok::<(), zarfolin::ImportFault>(())
    /// ```
    pub fn import(&self, text: &[u8], out: &mut [u8]) -> Result<Imported, ImportFault> {
        calls::import(self.text, &self.table, text, out)
    }

    /// The definition written anew, clean: [`calls::write_definition`]. It is refused only where the clean text would be longer than a
    /// definition may be ([`Refusal::CleanSize`]), and where the definition is one in XML ([`Refusal::Token`]: it is no 1.1 text).
    ///
    /// ```
    /// # let text = std::fs::read("../../examples/counter/survey.sss").unwrap();
    /// use zarfolin::Definition;
    /// let definition = Definition::read(&text)?;
    /// let clean = definition.clean().unwrap();
    /// assert!(clean.starts_with(b"SSS\r\nVERSION 1.1\r\n"));
    /// let again = Definition::read(&clean)?;
    /// assert_eq!(again.record_length(), definition.record_length());
    /// assert_eq!(again.clean().unwrap(), clean);
    /// # Ok::<(), zarfolin::DefinitionError>(())
    /// ```
    pub fn clean(&self) -> Result<Vec<u8>, Refusal> {
        let mut out = vec![0; limit::MAX_DEFINITION];
        // A 1.1 text was read into this table, so that none of 1 to 9 and 40 can come, and one in XML is 2 at its start: no place is lost.
        let length = calls::write_definition(self.text, &self.table, &mut out).map_err(|error| error.refusal)?;
        out.truncate(length);
        out.shrink_to_fit();
        Ok(out)
    }

    fn cells(&self, row: usize) -> &[i64] {
        &self.table[table::row_at(row)..][..table::ROW]
    }

    fn text_at(&self, place: i64, length: i64) -> RawText<'t> {
        RawText { whole: self.text, place: place as usize, length: length as usize, xml: self.is_xml() }
    }
}

impl fmt::Debug for Definition<'_> {
    fn fmt(&self, f: &mut fmt::Formatter) -> fmt::Result {
        f.debug_list().entries(self.variables()).finish()
    }
}

/// A text of a definition as it stands there: undecoded. Of a 1.1 definition bytes below 32 are to be dropped, `{"}`, `{{}` and `{hex}`
/// stand for other bytes, and `{NL}` for a new line; of one in XML references, comments, `<br/>` and the texts of other languages stand
/// in it. [`decode`](RawText::decode) does so. Two are equal where their undecoded bytes are.
#[derive(Clone, Copy)]
pub struct RawText<'t> {
    whole: &'t [u8],
    place: usize,
    length: usize,
    xml: bool,
}

impl<'t> RawText<'t> {
    /// The undecoded bytes.
    pub fn as_bytes(self) -> &'t [u8] {
        &self.whole[self.place..][..self.length]
    }

    /// Whether it decodes to UTF-8: it stands in a definition in XML.
    pub fn is_utf8(self) -> bool {
        self.xml
    }

    /// As many signs as it can have.
    pub fn most(self) -> usize {
        self.length * (1 + usize::from(self.xml))
    }

    /// Decodes it: its signs go to the start of the lent list, which is long enough where it has [`most`](RawText::most) numbers.
    ///
    /// ```
    /// # use zarfolin::{Definition, Refusal, Sign};
    /// let text = b"SSS VERSION 1.1 SURVEY RECORD R VARIABLE 1 NAME \"q\" LABEL \"a{NL}{0A}\" TYPE LOGICAL POSITION 1 END VARIABLE
    ///     END RECORD END SURVEY END SSS";
    /// let definition = Definition::read(text).unwrap();
    /// let label = definition.variable(0).unwrap().label();
    /// let mut list = vec![0; label.most()];
    /// assert!(label.decode(&mut list)?.signs().eq([Sign::Byte(b'a'), Sign::Break, Sign::Byte(10)]));
    /// # Ok::<(), Refusal>(())
    /// ```
    pub fn decode(self, list: &mut [i64]) -> Result<Text<'_>, Refusal> {
        calls::decode_text(self.whole, self.place as u64, self.length as u64, list)
    }
}

impl AsRef<[u8]> for RawText<'_> {
    fn as_ref(&self) -> &[u8] {
        self.as_bytes()
    }
}

impl PartialEq for RawText<'_> {
    fn eq(&self, other: &Self) -> bool {
        self.as_bytes() == other.as_bytes()
    }
}

impl Eq for RawText<'_> {}

impl PartialOrd for RawText<'_> {
    fn partial_cmp(&self, other: &Self) -> Option<Ordering> {
        Some(self.cmp(other))
    }
}

impl Ord for RawText<'_> {
    fn cmp(&self, other: &Self) -> Ordering {
        self.as_bytes().cmp(other.as_bytes())
    }
}

impl Hash for RawText<'_> {
    fn hash<H: Hasher>(&self, state: &mut H) {
        self.as_bytes().hash(state);
    }
}

/// As it stands, with what is no printable ASCII escaped.
impl fmt::Display for RawText<'_> {
    fn fmt(&self, f: &mut fmt::Formatter) -> fmt::Result {
        let plain = |b: u8| (32..127).contains(&b);
        self.as_bytes()
            .iter()
            .try_for_each(|&b| if plain(b) { write!(f, "{}", b as char) } else { write!(f, "\\x{b:02x}") })
    }
}

impl fmt::Debug for RawText<'_> {
    fn fmt(&self, f: &mut fmt::Formatter) -> fmt::Result {
        write!(f, "\"{}\"", self.as_bytes().escape_ascii())
    }
}

/// The type of a variable, with what it alone has.
#[derive(Clone, Copy, Debug, PartialEq, Eq, Hash)]
#[non_exhaustive]
pub enum Kind {
    /// One category.
    Single,
    /// A set of categories, a byte for each.
    Bits,
    /// A set of categories, one in each subfield.
    #[non_exhaustive]
    Spread {
        /// How many subfields.
        subfields: usize,
        /// The bytes of each.
        width: usize,
    },
    /// A number.
    #[non_exhaustive]
    Quantity {
        /// Its decimals: a value of 1250 with two is 12.50.
        decimals: u32,
        /// Whether a point stands in the data.
        point: bool,
    },
    /// A text.
    Character,
    /// A truth.
    Logical,
}

impl Kind {
    /// The word of the definition: `SINGLE` to `LOGICAL`.
    pub fn word(self) -> &'static str {
        match self {
            Kind::Single => "SINGLE",
            Kind::Bits | Kind::Spread { .. } => "MULTIPLE",
            Kind::Quantity { .. } => "QUANTITY",
            Kind::Character => "CHARACTER",
            Kind::Logical => "LOGICAL",
        }
    }
}

/// The use of a variable, which changes no reading or judgement.
#[derive(Clone, Copy, Debug, PartialEq, Eq, Hash)]
#[non_exhaustive]
pub enum Use {
    /// None.
    No,
    /// The serial number of a record.
    Serial,
    /// The weight of a record.
    Weight,
}

/// One variable of a definition: a row of its table.
///
/// ```
/// # let text = std::fs::read("../../examples/counter/survey.sss").unwrap();
/// # let definition = zarfolin::Definition::read(&text).unwrap();
/// let fee = definition.variable(3).unwrap();
/// assert_eq!((fee.ident(), fee.kind().word(), fee.columns()), (4, "QUANTITY", 19..=25));
/// assert_eq!(fee.name().as_bytes(), b"FEE");
/// assert_eq!(fee.range(), Some(-5000..=25000));
/// let waived = fee.values().next().unwrap();
/// assert_eq!((waived.number, waived.special, waived.text.as_bytes()), (99999, true, &b"Waived"[..]));
/// ```
#[derive(Clone, Copy)]
pub struct Variable<'a> {
    definition: &'a Definition<'a>,
    row: usize,
}

impl<'a> Variable<'a> {
    fn cell(&self, column: usize) -> i64 {
        self.definition.cells(self.row)[column]
    }

    fn count(&self, column: usize) -> usize {
        self.cell(column) as usize
    }

    /// Its row, from 0: what the calls know it by.
    pub fn row(&self) -> usize {
        self.row
    }

    /// Its ident.
    pub fn ident(&self) -> u16 {
        self.cell(column::IDENT) as u16
    }

    /// Its type.
    pub fn kind(&self) -> Kind {
        match self.cell(column::TYPE) {
            kind::SINGLE => Kind::Single,
            kind::MULTIPLE if self.cell(column::SUBFIELDS) == 0 => Kind::Bits,
            kind::MULTIPLE => {
                Kind::Spread { subfields: self.count(column::SUBFIELDS), width: self.count(column::SUBFIELD_WIDTH) }
            }
            kind::QUANTITY => {
                Kind::Quantity { decimals: self.cell(column::DECIMALS) as u32, point: self.cell(column::POINT) != 0 }
            }
            kind::CHARACTER => Kind::Character,
            // The library builds tables with these five types alone.
            _ => Kind::Logical,
        }
    }

    /// Its columns in a record, from 1, as POSITION has them.
    pub fn columns(&self) -> RangeInclusive<usize> {
        self.count(column::START)..=self.count(column::FINISH)
    }

    /// Its bytes in a record, from 0, filler among them.
    pub fn places(&self) -> Range<usize> {
        self.count(column::START) - 1..self.count(column::FINISH)
    }

    /// The width of its value, w: what is not filler.
    pub fn width(&self) -> usize {
        self.count(column::WIDTH)
    }

    /// Its name, undecoded.
    pub fn name(&self) -> RawText<'a> {
        self.definition.text_at(self.cell(column::NAME), self.cell(column::NAME_LENGTH))
    }

    /// Its label, undecoded.
    pub fn label(&self) -> RawText<'a> {
        self.definition.text_at(self.cell(column::LABEL), self.cell(column::LABEL_LENGTH))
    }

    /// Its use, which only a definition in XML can state.
    ///
    /// ```
    /// use zarfolin::{Definition, Use};
    /// let text = std::fs::read("../../examples/counter/survey.xml").unwrap();
    /// let definition = Definition::read(&text)?;
    /// let copies = definition.variables().find(|variable| variable.ident() == 3).unwrap();
    /// assert_eq!((copies.usage(), copies.filter().unwrap().name().as_bytes()), (Use::No, &b"SERVED"[..]));
    /// # Ok::<(), zarfolin::DefinitionError>(())
    /// ```
    pub fn usage(&self) -> Use {
        match self.cell(column::USE) {
            usage::SERIAL => Use::Serial,
            usage::WEIGHT => Use::Weight,
            // The library builds tables with these three alone.
            _ => Use::No,
        }
    }

    /// The LOGICAL before it that filters it, which only a definition in XML can state. It changes no reading or judgement.
    pub fn filter(&self) -> Option<Variable<'a>> {
        let row = self.count(column::FILTER).checked_sub(1)?;
        self.definition.variable(row)
    }

    /// The range of its VALUES, scaled by its decimals.
    pub fn range(&self) -> Option<RangeInclusive<i64>> {
        (self.cell(column::RANGE) != 0).then(|| self.cell(column::FROM)..=self.cell(column::TO))
    }

    /// Its values that have a text, in the order of the definition.
    pub fn values(&self) -> Lines<'a> {
        let before = self.count(column::LINES_BEFORE);
        Lines { definition: self.definition, lines: before..before + self.count(column::LINES) }
    }
}

impl fmt::Debug for Variable<'_> {
    fn fmt(&self, f: &mut fmt::Formatter) -> fmt::Result {
        let mut f = f.debug_struct("Variable");
        f.field("row", &self.row).field("ident", &self.ident()).field("kind", &self.kind());
        f.field("columns", &self.columns()).field("name", &self.name()).finish_non_exhaustive()
    }
}

/// One value of a variable that has a text.
#[derive(Clone, Copy, Debug, PartialEq, Eq)]
#[non_exhaustive]
pub struct Line<'t> {
    /// The value, scaled by the variable's decimals.
    pub number: i64,
    /// Whether SPECIAL stands with it.
    pub special: bool,
    /// Its text, undecoded.
    pub text: RawText<'t>,
}

macro_rules! counted {
    ($(#[$doc:meta])* $name:ident, $field:ident, $item:ty, |$definition:ident, $at:ident| $make:expr) => {
        $(#[$doc])*
        #[derive(Clone)]
        pub struct $name<'a> {
            definition: &'a Definition<'a>,
            $field: Range<usize>,
        }

        impl<'a> Iterator for $name<'a> {
            type Item = $item;

            fn next(&mut self) -> Option<$item> {
                let ($definition, $at) = (self.definition, self.$field.next()?);
                Some($make)
            }

            fn size_hint(&self) -> (usize, Option<usize>) {
                self.$field.size_hint()
            }

            fn nth(&mut self, n: usize) -> Option<$item> {
                let ($definition, $at) = (self.definition, self.$field.nth(n)?);
                Some($make)
            }
        }

        impl DoubleEndedIterator for $name<'_> {
            fn next_back(&mut self) -> Option<Self::Item> {
                let ($definition, $at) = (self.definition, self.$field.next_back()?);
                Some($make)
            }
        }

        impl ExactSizeIterator for $name<'_> {}
        impl FusedIterator for $name<'_> {}

        impl fmt::Debug for $name<'_> {
            fn fmt(&self, f: &mut fmt::Formatter) -> fmt::Result {
                f.debug_list().entries(self.clone()).finish()
            }
        }
    };
}

counted!(
    /// The variables of a definition.
    Variables, rows, Variable<'a>, |definition, row| Variable { definition, row }
);

counted!(
    /// The values of a variable that have a text.
    Lines, lines, Line<'a>, |definition, at| {
        let lines_at = definition.table[header::LINES_AT] as usize;
        let cells = &definition.table[lines_at + table::LINE * at..][..table::LINE];
        Line {
            number: cells[line::VALUE],
            special: cells[line::SPECIAL] != 0,
            text: definition.text_at(cells[line::TEXT], cells[line::TEXT_LENGTH]),
        }
    }
);

/// The records of a data file.
#[derive(Clone, Debug)]
pub struct Records<'a> {
    definition: &'a Definition<'a>,
    data: &'a [u8],
    from: usize,
    number: u64,
}

impl<'a> Iterator for Records<'a> {
    type Item = Record<'a>;

    fn next(&mut self) -> Option<Record<'a>> {
        let cut = calls::next_record(self.data, self.from)?;
        self.from = cut.next;
        self.number += 1;
        let bytes = &self.data[cut.start..cut.end];
        Some(Record { definition: self.definition, bytes, number: self.number, place: cut.start, ended: cut.ended })
    }
}

impl FusedIterator for Records<'_> {}

/// One record of a data file.
#[derive(Clone, Copy)]
pub struct Record<'a> {
    definition: &'a Definition<'a>,
    bytes: &'a [u8],
    number: u64,
    place: usize,
    ended: bool,
}

impl<'a> Record<'a> {
    /// Its bytes, without its terminator.
    pub fn bytes(&self) -> &'a [u8] {
        self.bytes
    }

    /// Which record of the file it is, from 1.
    pub fn number(&self) -> u64 {
        self.number
    }

    /// Where it starts in the data.
    pub fn place(&self) -> usize {
        self.place
    }

    /// Whether its terminator is there; only the last record's can be missing.
    pub fn is_ended(&self) -> bool {
        self.ended
    }

    /// Judges it by itself: 22, 23 and 241 to 243. That all records have one length, and the last a terminator, is judged with
    /// the file ([`Definition::judge`]).
    pub fn judge(&self) -> Result<(), RecordFault> {
        self.definition.judge_record(self.bytes)
    }

    /// The values of all its rows; refused if it is too short (22). A row that holds no legal value is refused by itself.
    pub fn values(&self) -> Result<Values<'a>, Refusal> {
        Values::read(self.definition, self.bytes)
    }
}

impl fmt::Debug for Record<'_> {
    fn fmt(&self, f: &mut fmt::Formatter) -> fmt::Result {
        write!(
            f,
            "Record {{ number: {}, ended: {}, bytes: \"{}\" }}",
            self.number,
            self.ended,
            self.bytes.escape_ascii()
        )
    }
}

/// The values of a record, row by row.
#[derive(Clone)]
pub struct Values<'a> {
    definition: &'a Definition<'a>,
    record: &'a [u8],
    /// The four numbers of each row; of a set the fourth is where it starts in the list.
    rows: Vec<[i64; 4]>,
    list: Vec<i64>,
}

impl<'a> Values<'a> {
    /// Reads every row of a record, of whatever file.
    pub fn read(definition: &'a Definition<'a>, record: &'a [u8]) -> Result<Values<'a>, Refusal> {
        let mut rows = vec![[0; 4]; definition.variables().len()];
        let mut list = vec![0; definition.variables().map(|variable| most_members(&variable)).sum()];
        let (members, _) = calls::read_record(&definition.table, record, &mut rows, &mut list)?;
        list.truncate(members);
        Ok(Values { definition, record, rows, list })
    }

    /// How many rows there are.
    pub fn len(&self) -> usize {
        self.rows.len()
    }

    /// Whether there are none; a definition has one at least.
    pub fn is_empty(&self) -> bool {
        self.rows.is_empty()
    }

    /// The value of a row, or why it holds none; nothing if there is no such row.
    pub fn get(&self, row: usize) -> Option<Result<Value<'_>, ReadError>> {
        let answer = self.rows.get(row)?;
        let start = if answer[0] == 0 && answer[1] == table::value::SET { answer[3] as usize } else { 0 };
        Some(calls::value_of(answer, self.record, &self.list[start..]))
    }

    /// Each variable with its value, or why it holds none.
    pub fn iter(&self) -> impl ExactSizeIterator<Item = (Variable<'a>, Result<Value<'_>, ReadError>)> {
        let definition: &'a Definition<'a> = self.definition;
        (0..self.rows.len())
            .map(move |row| (Variable { definition, row }, self.get(row).unwrap_or(Err(Refusal::Row.into()))))
    }

    /// The rows that hold no legal value: all faults of the record's fields at once.
    pub fn faults(&self) -> impl Iterator<Item = (Variable<'a>, ReadError)> {
        self.iter().filter_map(|(variable, value)| value.err().map(|error| (variable, error)))
    }
}

impl fmt::Debug for Values<'_> {
    fn fmt(&self, f: &mut fmt::Formatter) -> fmt::Result {
        f.debug_map().entries(self.iter().map(|(variable, value)| (variable.ident(), value))).finish()
    }
}

/// The most members that a set of this variable has.
fn most_members(variable: &Variable) -> usize {
    match variable.kind() {
        Kind::Bits => variable.width(),
        Kind::Spread { subfields, .. } => subfields,
        _ => 0,
    }
}
