// The library in Rust: compiles the text of a track console in the second edition, opens the file and prints four capabilities.
extern "C" {
    fn terminfo_open(file: *const u8, length: usize, booleans: usize, numbers: usize, strings: usize, tables: *mut u64) -> u64;
    fn terminfo_boolean(file: *const u8, length: usize, booleans: usize, numbers: usize, strings: usize, place: usize) -> u64;
    fn terminfo_number(file: *const u8, length: usize, booleans: usize, numbers: usize, strings: usize, place: usize) -> u64;
    fn terminfo_string(file: *const u8, length: usize, booleans: usize, numbers: usize, strings: usize, place: usize) -> u64;
    fn terminfo_compile_first(text: *const u8, length: usize, booleans: usize, numbers: usize, strings: usize, buffer: *mut u8,
        buffer_length: usize) -> u64;
}

// Places and the second edition, as in include/terminfo_names.h.
const AM: usize = 1;
const COLS: usize = 0;
const COLORS: usize = 13;
const CUP: usize = 10;
const BOOLEANS: usize = 37;
const NUMBERS: usize = 16;
const STRINGS: usize = 158;

/// The number of a refusal, and the place that it gives: of a file's first offending byte or slot, of a text's field.
type Refused = (u64, u64);
fn given(answer: u64) -> Result<u64, Refused> {
    if answer >> 56 == 0 { Ok(answer) } else { Err((answer >> 56, answer & 0xFFFF_FFFF_FFFF)) }
}

#[derive(Clone, Copy)]
enum Kind { Boolean, Number, String }
/// A file that opening accepted. Each call is lent slices and arrays that are alive until it returns.
struct Entry<'a>(&'a [u8]);
impl<'a> Entry<'a> {
    /// The entry in a file.
    fn open(file: &'a [u8]) -> Result<Self, Refused> {
        let mut tables = [0; 10];
        given(unsafe { terminfo_open(file.as_ptr(), file.len(), BOOLEANS, NUMBERS, STRINGS, tables.as_mut_ptr()) })?;
        Ok(Entry(file))
    }
    /// The state of the capability of a kind at a place, as it is printed.
    fn state(&self, kind: Kind, place: usize) -> Result<String, Refused> {
        let call = [terminfo_boolean, terminfo_number, terminfo_string][kind as usize];
        let answer = given(unsafe { call(self.0.as_ptr(), self.0.len(), BOOLEANS, NUMBERS, STRINGS, place) })?;
        let (start, length) = ((answer >> 24 & 0xFF_FFFF) as usize, (answer & 0xFF_FFFF) as usize);
        match (answer >> 48 & 0xFF, kind) {
            (0, _) => Ok("absent".into()),
            (1, Kind::Boolean) => Ok("present".into()),
            (1, Kind::Number) => Ok(format!("present {}", answer & 0xFFFF)),
            (1, Kind::String) => Ok(format!("present {}", self.0[start..start + length].escape_ascii()).replace("\\x1b", "\\E")),
            _ => Ok("cancelled".into()),
        }
    }
}

fn main() -> Result<(), Refused> {
    let text = b"console|track console of 24 x 80,\n\tam, cols#80, colors#8, cup=\\E[%i%p1%d;%p2%dH,\n";
    let mut file = [0; 4096];
    let (buffer, room) = (file.as_mut_ptr(), file.len());
    let made = unsafe { terminfo_compile_first(text.as_ptr(), text.len(), BOOLEANS, NUMBERS, STRINGS, buffer, room) };
    let entry = Entry::open(&file[..given(made)? as usize])?;
    let shown = [("am", Kind::Boolean, AM), ("cols", Kind::Number, COLS), ("colors", Kind::Number, COLORS), ("cup", Kind::String, CUP)];
    for (name, kind, place) in shown {
        println!("{name} {}", entry.state(kind, place)?);
    }
    Ok(())
}
