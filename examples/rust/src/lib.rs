//! Terminfo entries for Rust: a safe wrapper over the proved library, with no dependencies.
//!
//! ```
//! use chulindafe::{compile_first, find, Capability, Edition, Entry, State};
//!
//! let edition = Edition::SECOND;
//! let file = compile_first(b"console|track console,\n\tam, cols#80, bel@,\n", edition)?;
//! let entry = Entry::open(&file, edition)?;
//! let Some(Capability::Number(cols)) = find(b"cols", edition) else { panic!() };
//! let Some(Capability::String(bel)) = find(b"bel", edition) else { panic!() };
//! assert_eq!(entry.number(cols)?, State::Present(80));
//! assert_eq!(entry.string(bel)?, State::Cancelled);
//! # Ok::<(), chulindafe::Refusal>(())
//! ```

mod raw;
mod refusal;

pub use refusal::{MergeRefusal, Refusal};

/// The most bytes of a compiled file.
const FILE_MOST: usize = 4096;

/// How many places of each of the three ordered lists a reader or writer knows.
#[derive(Clone, Copy, Debug, PartialEq, Eq)]
pub struct Edition {
    pub booleans: usize,
    pub numbers: usize,
    pub strings: usize,
}

impl Edition {
    pub const FIRST: Edition = Edition { booleans: 21, numbers: 8, strings: 138 };
    /// Knows every capability that has a name.
    pub const SECOND: Edition = Edition { booleans: 37, numbers: 16, strings: 158 };
}

/// The state that a capability has in an entry.
#[derive(Clone, Copy, Debug, PartialEq, Eq)]
pub enum State<T> {
    Absent,
    Cancelled,
    Present(T),
}

impl<T> State<T> {
    /// The state in an answer; `content` takes the content of a present one out of it.
    fn of(answer: u64, content: impl FnOnce(u64) -> T) -> State<T> {
        match raw::kind(answer) {
            0 => State::Absent,
            1 => State::Present(content(answer)),
            2 => State::Cancelled,
            kind => unreachable!("the library gives no state of kind {kind}"),
        }
    }

    /// The kind of the state as the library takes it.
    fn kind(&self) -> u8 {
        match self {
            State::Absent => 0,
            State::Present(_) => 1,
            State::Cancelled => 2,
        }
    }
}

/// The place of a boolean, a number or a string in the list of its kind: the three are not exchanged.
#[derive(Clone, Copy, Debug, PartialEq, Eq)]
pub struct BooleanPlace(pub usize);
#[derive(Clone, Copy, Debug, PartialEq, Eq)]
pub struct NumberPlace(pub usize);
#[derive(Clone, Copy, Debug, PartialEq, Eq)]
pub struct StringPlace(pub usize);

/// A capability by its kind and place.
#[derive(Clone, Copy, Debug, PartialEq, Eq)]
pub enum Capability {
    Boolean(BooleanPlace),
    Number(NumberPlace),
    String(StringPlace),
}

impl Capability {
    /// The capability's name, if it has one.
    pub fn name(self) -> Option<Vec<u8>> {
        let (kind, place) = match self {
            Capability::Boolean(BooleanPlace(place)) => (0, place),
            Capability::Number(NumberPlace(place)) => (1, place),
            Capability::String(StringPlace(place)) => (2, place),
        };
        let answer = raw::given(unsafe { raw::terminfo_capability(kind, place) }).ok()?;
        Some(answer.to_le_bytes().into_iter().take_while(|&byte| byte != 0).collect())
    }
}

/// The capability that a name means in an edition.
pub fn find(name: &[u8], edition: Edition) -> Option<Capability> {
    let Edition { booleans, numbers, strings } = edition;
    let answer = raw::given(unsafe {
        raw::terminfo_find(name.as_ptr(), name.len(), booleans, numbers, strings)
    })
    .ok()?;
    let place = raw::value(answer);
    Some(match raw::kind(answer) {
        0 => Capability::Boolean(BooleanPlace(place)),
        1 => Capability::Number(NumberPlace(place)),
        2 => Capability::String(StringPlace(place)),
        kind => unreachable!("the library finds no capability of kind {kind}"),
    })
}

/// A compiled file that opening accepted, as an edition reads it.
#[derive(Clone, Copy, Debug)]
pub struct Entry<'a> {
    file: &'a [u8],
    edition: Edition,
    beyond: Edition,
}

impl<'a> Entry<'a> {
    /// Checks all of a file.
    pub fn open(file: &'a [u8], edition: Edition) -> Result<Entry<'a>, Refusal> {
        let Edition { booleans, numbers, strings } = edition;
        let mut tables = [0; 10];
        raw::given(unsafe {
            raw::terminfo_open(file.as_ptr(), file.len(), booleans, numbers, strings, &mut tables)
        })?;
        let [.., booleans, numbers, strings] = tables.map(|slots| slots as usize);
        Ok(Entry { file, edition, beyond: Edition { booleans, numbers, strings } })
    }

    pub fn edition(&self) -> Edition {
        self.edition
    }

    /// How many slots of each list lie beyond the edition.
    pub fn beyond(&self) -> Edition {
        self.beyond
    }

    /// The names, with bars between them.
    pub fn names(&self) -> &'a [u8] {
        let Edition { booleans, numbers, strings } = self.edition;
        let answer = unsafe {
            raw::terminfo_names(self.file.as_ptr(), self.file.len(), booleans, numbers, strings)
        };
        self.part(raw::given(answer).expect("the file was opened in this edition"))
    }

    /// The state of a boolean; a place beyond the edition is refused (17).
    pub fn boolean(&self, BooleanPlace(place): BooleanPlace) -> Result<State<()>, Refusal> {
        Ok(State::of(self.ask(raw::terminfo_boolean, place)?, |_| ()))
    }

    /// The state of a number; a place beyond the edition is refused (17).
    pub fn number(&self, NumberPlace(place): NumberPlace) -> Result<State<u32>, Refusal> {
        Ok(State::of(self.ask(raw::terminfo_number, place)?, |answer| raw::value(answer) as u32))
    }

    /// The state of a string, which is a part of the file; a place beyond the edition is refused (17).
    pub fn string(&self, StringPlace(place): StringPlace) -> Result<State<&'a [u8]>, Refusal> {
        Ok(State::of(self.ask(raw::terminfo_string, place)?, |answer| self.part(answer)))
    }

    fn ask(&self, call: Ask, place: usize) -> Result<u64, Refusal> {
        let Edition { booleans, numbers, strings } = self.edition;
        let (file, length) = (self.file.as_ptr(), self.file.len());
        raw::given(unsafe { call(file, length, booleans, numbers, strings, place) })
    }

    /// The part of the file that an answer tells of.
    fn part(&self, answer: u64) -> &'a [u8] {
        &self.file[raw::upper(answer)..][..raw::lower(answer)]
    }
}

type Ask = unsafe extern "C" fn(*const u8, usize, usize, usize, usize, usize) -> u64;

/// Compiles the description of a text that has the wanted name, any but its last, in an edition. A
/// description may build on others of the text (`use=`). A field that the edition does not know is
/// refused (11).
pub fn compile(text: &[u8], wanted: &[u8], edition: Edition) -> Result<Vec<u8>, Refusal> {
    let Edition { booleans, numbers, strings } = edition;
    written(|buffer| unsafe {
        raw::terminfo_compile(
            text.as_ptr(),
            text.len(),
            wanted.as_ptr(),
            wanted.len(),
            booleans,
            numbers,
            strings,
            buffer.as_mut_ptr(),
            buffer.len(),
        )
    })
}

/// Compiles the first description of a text, as `compile` does by its name.
pub fn compile_first(text: &[u8], edition: Edition) -> Result<Vec<u8>, Refusal> {
    let Edition { booleans, numbers, strings } = edition;
    written(|buffer| unsafe {
        raw::terminfo_compile_first(
            text.as_ptr(),
            text.len(),
            booleans,
            numbers,
            strings,
            buffer.as_mut_ptr(),
            buffer.len(),
        )
    })
}

/// Writes the first file over the second: its names, and its states where they are not absent.
pub fn merge(first: &[u8], second: &[u8], edition: Edition) -> Result<Vec<u8>, MergeRefusal> {
    let Edition { booleans, numbers, strings } = edition;
    let mut which = 0;
    written(|buffer| {
        let answer = unsafe {
            raw::terminfo_merge(
                first.as_ptr(),
                first.len(),
                second.as_ptr(),
                second.len(),
                booleans,
                numbers,
                strings,
                buffer.as_mut_ptr(),
                buffer.len(),
            )
        };
        which = raw::kind(answer);
        answer
    })
    .map_err(|refusal| MergeRefusal::of(which, refusal))
}

/// Writes a file that has exactly the edition's slots. States past the edition are not read, too few
/// are refused (3).
pub fn write(
    edition: Edition, names: &[u8], booleans: &[State<()>], numbers: &[State<u32>],
    strings: &[State<&[u8]>],
) -> Result<Vec<u8>, Refusal> {
    let boolean_kinds: Vec<u8> = booleans.iter().map(State::kind).collect();
    let number_kinds: Vec<u8> = numbers.iter().map(State::kind).collect();
    let string_kinds: Vec<u8> = strings.iter().map(State::kind).collect();
    let values: Vec<u32> = numbers.iter().map(|state| content(*state).unwrap_or(0)).collect();
    let (mut lent, mut starts, mut lengths) = (Vec::new(), Vec::new(), Vec::new());
    for state in strings {
        let bytes = content(*state).unwrap_or(b"");
        starts.push(lent.len());
        lengths.push(bytes.len());
        lent.extend_from_slice(bytes);
    }
    written(|buffer| unsafe {
        raw::terminfo_write(
            edition.booleans,
            edition.numbers,
            edition.strings,
            names.as_ptr(),
            names.len(),
            boolean_kinds.as_ptr(),
            boolean_kinds.len(),
            number_kinds.as_ptr(),
            number_kinds.len(),
            values.as_ptr(),
            values.len(),
            string_kinds.as_ptr(),
            string_kinds.len(),
            starts.as_ptr(),
            starts.len(),
            lengths.as_ptr(),
            lengths.len(),
            lent.as_ptr(),
            lent.len(),
            buffer.as_mut_ptr(),
            buffer.len(),
        )
    })
}

fn content<T>(state: State<T>) -> Option<T> {
    match state {
        State::Present(content) => Some(content),
        State::Absent | State::Cancelled => None,
    }
}

/// The file that a call writes into a buffer, which has room for every compiled file.
fn written(call: impl FnOnce(&mut [u8]) -> u64) -> Result<Vec<u8>, Refusal> {
    let mut file = vec![0; FILE_MOST];
    let length = raw::value(raw::given(call(&mut file))?);
    file.truncate(length);
    Ok(file)
}

/// The variables A to Z, which last from one expansion to the next.
#[derive(Clone, Copy, Debug, Default, PartialEq, Eq)]
pub struct Lasting([i32; 26]);

impl Lasting {
    /// The value of a variable, `b'A'` to `b'Z'`.
    pub fn get(&self, letter: u8) -> Option<i32> {
        self.0.get(usize::from(letter.checked_sub(b'A')?)).copied()
    }
}

/// What an expansion gives: the bytes, of which none is 0 unless one of a text is, and how many items
/// were taken.
#[derive(Clone, Debug, PartialEq, Eq)]
pub struct Expanded {
    pub bytes: Vec<u8>,
    pub steps: usize,
}

/// One of the nine arguments of an expansion.
#[derive(Clone, Copy, Debug, PartialEq, Eq)]
pub enum Argument<'a> {
    Number(i32),
    /// At most 1,000 bytes of any value.
    Text(&'a [u8]),
}

/// The number 0.
impl Default for Argument<'_> {
    fn default() -> Self {
        Argument::Number(0)
    }
}

/// How many bytes `expand` gives at most for a string of this length.
pub const fn expand_room(length: usize) -> usize {
    expand_texts_room(length, 0)
}

/// How many bytes `expand_texts` gives at most for a string of this length with so many `%s` items.
pub const fn expand_texts_room(length: usize, texts: usize) -> usize {
    length.saturating_mul(25).saturating_add(texts.saturating_mul(1000))
}

/// The same whatever its `%s` items, each of which takes two bytes.
pub const fn expand_texts_room_any(length: usize) -> usize {
    length.saturating_mul(525)
}

/// Expands a parameterized string with nine numbers. A refused expansion leaves the lasting variables
/// as they were. The steps are at most as many as the string has bytes, the bytes at most
/// `expand_room` of its length. A `%s` or `%l` that is reached is refused (15, 21).
pub fn expand(
    string: &[u8], arguments: [i32; 9], lasting: &mut Lasting,
) -> Result<Expanded, Refusal> {
    expanded(string.len(), |bytes| unsafe {
        raw::terminfo_expand(
            string.as_ptr(),
            string.len(),
            &arguments,
            &mut lasting.0,
            bytes.as_mut_ptr(),
            bytes.len(),
            0,
        )
    })
}

/// Expands a parameterized string with nine numbers and texts, as `expand` does with numbers: `%s`
/// prints a text, `%l` gives its length. A text of more than 1,000 bytes is refused (1), used or not,
/// and so is an item that takes a value of the other kind (21). The bytes are at most
/// `expand_texts_room` of the string's length and its `%s` items, and so `expand_texts_room_any`.
pub fn expand_texts(
    string: &[u8], arguments: [Argument; 9], lasting: &mut Lasting,
) -> Result<Expanded, Refusal> {
    let (mut kinds, mut numbers) = ([0; 9], [0; 9]);
    let (mut starts, mut lengths, mut texts) = ([0; 9], [0; 9], Vec::new());
    for (i, argument) in arguments.into_iter().enumerate() {
        match argument {
            Argument::Number(number) => numbers[i] = number,
            Argument::Text(text) => {
                (kinds[i], starts[i], lengths[i]) = (1, texts.len(), text.len());
                texts.extend_from_slice(text);
            }
        }
    }
    expanded(string.len() + texts.len(), |bytes| unsafe {
        raw::terminfo_expand_texts(
            string.as_ptr(),
            string.len(),
            &kinds,
            &numbers,
            &starts,
            &lengths,
            texts.as_ptr(),
            texts.len(),
            &mut lasting.0,
            bytes.as_mut_ptr(),
            bytes.len(),
            0,
        )
    })
}

/// What a call expands into a buffer, first of this length, then of the one that it needs.
fn expanded(length: usize, mut call: impl FnMut(&mut [u8]) -> u64) -> Result<Expanded, Refusal> {
    let mut bytes = vec![0; length];
    loop {
        match raw::given(call(&mut bytes)) {
            Err(Refusal::Room { needed }) => bytes.resize(needed, 0),
            Err(refusal) => return Err(refusal),
            Ok(answer) => {
                bytes.truncate(raw::lower(answer));
                return Ok(Expanded { bytes, steps: raw::upper(answer) });
            }
        }
    }
}
