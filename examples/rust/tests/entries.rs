//! Document 01's examples and its three states, through the wrapper.
use chulindafe::*;

const ACT4: &[u8] = include_bytes!("../../act4.ti");
const CONSOLE: &[u8] = include_bytes!("../../console.ti");
const ONE_WAY: &[u8] = include_bytes!("../../one-way.ti");
const FAMILY: &[u8] = include_bytes!("../../family.ti");
const HPTERM: &[u8] = include_bytes!("../../hpterm.ti");

fn boolean(name: &str) -> BooleanPlace {
    match find(name.as_bytes(), Edition::SECOND) {
        Some(Capability::Boolean(place)) => place,
        other => panic!("{name}: {other:?}"),
    }
}

fn number(name: &str) -> NumberPlace {
    match find(name.as_bytes(), Edition::SECOND) {
        Some(Capability::Number(place)) => place,
        other => panic!("{name}: {other:?}"),
    }
}

fn string(name: &str) -> StringPlace {
    match find(name.as_bytes(), Edition::SECOND) {
        Some(Capability::String(place)) => place,
        other => panic!("{name}: {other:?}"),
    }
}

fn values(first: &[i32]) -> [i32; 9] {
    let mut all = [0; 9];
    all[..first.len()].copy_from_slice(first);
    all
}

fn expanded(text: &[u8], arguments: &[i32]) -> Result<(Vec<u8>, usize), Refusal> {
    let done = expand(text, values(arguments), &mut Lasting::default())?;
    Ok((done.bytes, done.steps))
}

#[test]
fn names_are_those_of_the_lists() {
    assert_eq!(boolean("bw"), BooleanPlace(0));
    assert_eq!(boolean("xon"), BooleanPlace(20));
    assert_eq!(number("wsl"), NumberPlace(7));
    assert_eq!(string("hu"), StringPlace(137));
    assert_eq!(boolean("lpix"), BooleanPlace(36));
    assert_eq!(number("colors"), NumberPlace(13));
    assert_eq!(string("rmln"), StringPlace(157));
    assert_eq!(Capability::String(StringPlace(10)).name().as_deref(), Some(&b"cup"[..]));
    assert_eq!(Capability::Number(NumberPlace(13)).name().as_deref(), Some(&b"colors"[..]));
    assert_eq!(Capability::String(StringPlace(158)).name(), None);
    assert_eq!(find(b"colors", Edition::FIRST), None);
    assert_eq!(find(b"wrong", Edition::SECOND), None);
    assert_eq!(find(b"", Edition::SECOND), None);
}

#[test]
fn act4_is_compiled_and_read() -> Result<(), Refusal> {
    assert_eq!(compile_first(ACT4, Edition::SECOND)?.len(), 464);
    let file = compile_first(ACT4, Edition::FIRST)?;
    assert_eq!(file.len(), 392);
    let entry = Entry::open(&file, Edition::FIRST)?;
    assert_eq!(entry.names(), b"microterm|act4|microterm act iv");
    assert_eq!(entry.edition(), Edition::FIRST);
    assert_eq!(entry.beyond(), Edition { booleans: 0, numbers: 0, strings: 0 });
    assert_eq!(entry.boolean(boolean("am"))?, State::Present(()));
    assert_eq!(entry.boolean(boolean("bw"))?, State::Absent);
    assert_eq!(entry.number(number("cols"))?, State::Present(80));
    assert_eq!(entry.number(number("it"))?, State::Absent);
    assert_eq!(entry.string(string("cup"))?, State::Present(&b"\x14%p1%c%p2%c"[..]));
    assert_eq!(entry.string(string("hu"))?, State::Absent);
    Ok(())
}

#[test]
fn each_edition_reads_the_others_files() -> Result<(), Refusal> {
    let text = b"a|b,\n\tam, colors#8,\n";
    assert_eq!(compile_first(text, Edition::FIRST), Err(Refusal::Unknown { at: 10 }));
    let file = compile_first(text, Edition::SECOND)?;
    let entry = Entry::open(&file, Edition::SECOND)?;
    assert_eq!(entry.number(number("colors"))?, State::Present(8));
    let entry = Entry::open(&file, Edition::FIRST)?;
    assert_eq!(entry.beyond(), Edition { booleans: 16, numbers: 8, strings: 20 });
    assert_eq!(entry.boolean(boolean("am"))?, State::Present(()));
    assert_eq!(entry.number(number("colors")), Err(Refusal::Place));
    let file = compile_first(b"a|b,\n\tam,\n", Edition::FIRST)?;
    let entry = Entry::open(&file, Edition::SECOND)?;
    assert_eq!(entry.beyond(), Edition { booleans: 0, numbers: 0, strings: 0 });
    assert_eq!(entry.boolean(boolean("am"))?, State::Present(()));
    assert_eq!(entry.number(number("colors"))?, State::Absent);
    let unnamed = Edition { booleans: 64, numbers: 64, strings: 512 };
    let file = compile_first(text, unnamed)?;
    assert_eq!(Entry::open(&file, unnamed)?.string(StringPlace(511))?, State::Absent);
    Ok(())
}

#[test]
fn a_place_beyond_the_edition_is_refused() -> Result<(), Refusal> {
    let file = compile_first(ACT4, Edition::FIRST)?;
    let edition = Edition { booleans: 2, numbers: 1, strings: 11 };
    let entry = Entry::open(&file, edition)?;
    assert_eq!(entry.beyond(), Edition { booleans: 19, numbers: 7, strings: 127 });
    assert_eq!(entry.number(number("cols"))?, State::Present(80));
    assert_eq!(entry.boolean(BooleanPlace(2)), Err(Refusal::Place));
    assert_eq!(entry.number(number("lines")), Err(Refusal::Place));
    assert_eq!(entry.string(StringPlace(usize::MAX)), Err(Refusal::Place));
    Ok(())
}

#[test]
fn files_are_refused() -> Result<(), Refusal> {
    let file = compile_first(ACT4, Edition::FIRST)?;
    let opened = |file: &[u8]| Entry::open(file, Edition::FIRST).map(|_| ());
    let with = |place: usize, byte| {
        let mut file = file.clone();
        file[place] = byte;
        opened(&file)
    };
    assert_eq!(opened(&[]), Err(Refusal::Length));
    assert_eq!(opened(&file[..100]), Err(Refusal::Length));
    assert_eq!(with(0, 0), Err(Refusal::Magic));
    assert_eq!(with(2, 0), Err(Refusal::Header));
    assert_eq!(with(15, 0), Err(Refusal::Names { at: 15 }));
    assert_eq!(with(43, b'x'), Err(Refusal::Names { at: 43 }));
    assert_eq!(with(46, 2), Err(Refusal::Boolean { at: 46 }));
    assert_eq!(with(65, 1), Err(Refusal::Boolean { at: 65 }));
    assert_eq!(with(67, 128), Err(Refusal::Number { at: 66 }));
    assert_eq!(with(83, 127), Err(Refusal::String { at: 82 }));
    let large = Edition { booleans: 65, ..Edition::FIRST };
    assert_eq!(Entry::open(&file, large).map(|_| ()), Err(Refusal::Header));
    Ok(())
}

#[test]
fn texts_are_refused_with_their_place() {
    let refused = |text: &[u8]| compile_first(text, Edition::SECOND).unwrap_err();
    assert_eq!(refused(b""), Refusal::Malformed { at: 0 });
    assert_eq!(refused(b"a|b,\n\tam, cols#80, wrong,\n"), Refusal::Unknown { at: 19 });
    assert_eq!(refused(b"a|b,\n\tuse=c,\n"), Refusal::NotFound { at: 6 });
    assert_eq!(refused(b"a|b,\n\tuse=a,\n"), Refusal::Circular { at: 6 });
    assert_eq!(refused(b"a|b,\n\tlm#32768,\n"), Refusal::Limit { at: 6 });
    assert_eq!(refused(&[b' '; 16_385]), Refusal::Length);
    let large = Edition { strings: 513, ..Edition::SECOND };
    assert_eq!(compile_first(&[b' '; 16_385], large), Err(Refusal::Header));
}

#[test]
fn a_cancelled_state_stays_cancelled_in_a_merge() -> Result<(), Refusal> {
    let edition = Edition::SECOND;
    let (first, second) = (compile_first(ONE_WAY, edition)?, compile_first(CONSOLE, edition)?);
    let ri = string("ri");
    let state = |file: &[u8]| -> Result<State<Vec<u8>>, Refusal> {
        Ok(match Entry::open(file, Edition::FIRST)?.string(ri)? {
            State::Absent => State::Absent,
            State::Cancelled => State::Cancelled,
            State::Present(bytes) => State::Present(bytes.to_vec()),
        })
    };
    assert_eq!(state(&second)?, State::Present(b"\x1bM".to_vec()));
    assert_eq!(state(&merge(&first, &second, edition)?)?, State::Cancelled);
    assert_eq!(state(&merge(&second, &first, edition)?)?, State::Present(b"\x1bM".to_vec()));
    Ok(())
}

#[test]
fn a_merge_says_which_file_is_refused() -> Result<(), Refusal> {
    let sound = compile_first(ACT4, Edition::FIRST)?;
    let mut bad = sound.clone();
    bad[46] = 2;
    let merged = |first, second| merge(first, second, Edition::FIRST).map(|_| ());
    let refusal = Refusal::Boolean { at: 46 };
    assert_eq!(merged(&bad, &sound), Err(MergeRefusal::First(refusal)));
    assert_eq!(merged(&sound, &bad), Err(MergeRefusal::Second(refusal)));
    assert_eq!(merged(&bad, &sound[1..]), Err(MergeRefusal::First(refusal)));
    assert_eq!(merged(&sound[1..], &bad), Err(MergeRefusal::First(Refusal::Magic)));
    assert_eq!(merged(&sound, &[]), Err(MergeRefusal::Second(Refusal::Length)));
    let large = Edition { strings: 513, ..Edition::FIRST };
    assert_eq!(merge(&bad, &bad, large), Err(MergeRefusal::Neither(Refusal::Header)));

    let edition = Edition { booleans: 0, numbers: 0, strings: 6 };
    let (long, none) = (State::Present(&[b'x'; 1000][..]), State::Absent);
    let first = write(edition, b"a", &[], &[], &[long, long, long, none, none, none])?;
    let second = write(edition, b"b", &[], &[], &[none, none, none, long, long, long])?;
    assert_eq!(merge(&first, &second, edition), Err(MergeRefusal::Neither(Refusal::Size)));
    Ok(())
}

#[test]
fn descriptions_build_on_others() -> Result<(), Refusal> {
    let edition = Edition::SECOND;
    let state = |name: &[u8], capability| -> Result<State<Vec<u8>>, Refusal> {
        let file = compile(FAMILY, name, edition)?;
        Ok(match Entry::open(&file, edition)?.string(capability)? {
            State::Absent => State::Absent,
            State::Cancelled => State::Cancelled,
            State::Present(bytes) => State::Present(bytes.to_vec()),
        })
    };
    assert_eq!(state(b"base", string("ri"))?, State::Present(b"\x1bM".to_vec()));
    assert_eq!(state(b"wide", string("ri"))?, State::Present(b"\x1bM".to_vec()));
    assert_eq!(state(b"one-way", string("ri"))?, State::Cancelled);
    assert_eq!(state(b"relay", string("ri"))?, State::Cancelled);
    assert_eq!(state(b"relay", string("cr"))?, State::Present(b"\r".to_vec()));
    assert_eq!(compile(FAMILY, b"base", edition), compile_first(FAMILY, edition));
    assert_eq!(state(b"no-one", string("ri")), Err(Refusal::NotFound { at: 0 }));
    let chain: Vec<u8> = (b'a'..=b'j')
        .flat_map(|c| format!("{0}|x,\n use={1},\n", c as char, (c + 1) as char).into_bytes())
        .collect();
    assert_eq!(compile_first(&chain, edition), Err(Refusal::NinthUse { at: 8 * 13 + 6 }));
    assert_eq!(compile(&chain, b"c", edition), Err(Refusal::NotFound { at: 9 * 13 + 6 }));
    Ok(())
}

#[test]
fn what_is_written_is_read() -> Result<(), Refusal> {
    let edition = Edition { booleans: 3, numbers: 3, strings: 4 };
    let booleans = [State::Absent, State::Present(()), State::Cancelled];
    let numbers = [State::Present(32_767), State::Cancelled, State::Absent];
    let strings =
        [State::Present(&b""[..]), State::Cancelled, State::Present(b"\r"), State::Absent];
    let file = write(edition, b"a|b", &booleans, &numbers, &strings)?;
    let entry = Entry::open(&file, edition)?;
    assert_eq!(entry.names(), b"a|b");
    for (place, state) in booleans.into_iter().enumerate() {
        assert_eq!(entry.boolean(BooleanPlace(place))?, state);
    }
    for (place, state) in numbers.into_iter().enumerate() {
        assert_eq!(entry.number(NumberPlace(place))?, state);
    }
    for (place, state) in strings.into_iter().enumerate() {
        assert_eq!(entry.string(StringPlace(place))?, state);
    }
    let refused = |names: &[u8], number, string: &[u8]| {
        write(
            Edition { booleans: 0, numbers: 1, strings: 1 },
            names,
            &[],
            &[State::Present(number)],
            &[State::Present(string)],
        )
    };
    assert_eq!(refused(b"", 0, b""), Err(Refusal::Names { at: 0 }));
    assert_eq!(refused(b"a", 32_768, b""), Err(Refusal::Limit { at: 0 }));
    assert_eq!(refused(b"a", 0, b"\0"), Err(Refusal::Limit { at: 0 }));
    assert_eq!(write(edition, b"a", &booleans[1..], &numbers, &strings), Err(Refusal::Header));
    Ok(())
}

#[test]
fn strings_are_expanded() {
    assert_eq!(expanded(b"\x1b=%p1%' '%+%c%p2%' '%+%c", &[3, 12]), Ok((b"\x1b=#,".to_vec(), 10)));
    assert_eq!(expanded(b"\x14%p1%c%p2%c", &[0, 256]), Ok((b"\x14\x80\x80".to_vec(), 5)));
    assert_eq!(expanded(b"%p1%03d", &[-5]), Ok((b"-05".to_vec(), 2)));
    assert_eq!(expanded(b"\x1b[%i%p1%d;%p2%dH", &[0, 0]).unwrap().0, b"\x1b[1;1H");
    assert_eq!(expanded(b"%p1%99d", &[1]).unwrap().0.len(), 99);
    assert_eq!(expanded(b"", &[]), Ok((Vec::new(), 0)));
    assert_eq!(expanded(b"%?%p2%|%t;4%;", &[]), Err(Refusal::StackEmpty { at: 5 }));
    assert_eq!(expanded(&b"%p1".repeat(21), &[]), Err(Refusal::StackFull { at: 60 }));
    assert_eq!(expanded(b"%?", &[]), Err(Refusal::Expansion { at: 2 }));
    assert_eq!(expanded(&[b'a'; 1001], &[]), Err(Refusal::Length));
}

/// Expands with these arguments, the others 0.
fn with_texts(string: &[u8], first: &[Argument]) -> Result<(Vec<u8>, usize), Refusal> {
    let mut all = [Argument::default(); 9];
    all[..first.len()].copy_from_slice(first);
    let done = expand_texts(string, all, &mut Lasting::default())?;
    Ok((done.bytes, done.steps))
}

#[test]
fn strings_are_expanded_with_texts() -> Result<(), Refusal> {
    use Argument::{Number, Text};
    let file = compile_first(HPTERM, Edition::SECOND)?;
    let entry = Entry::open(&file, Edition::SECOND)?;
    let State::Present(pfkey) = entry.string(string("pfkey"))? else { panic!() };
    let programmed = with_texts(pfkey, &[Number(1), Text(b"make all\r")])?;
    assert_eq!(programmed, (b"\x1b&f1k9Lmake all\r".to_vec(), 12));
    assert_eq!(with_texts(b"%p2%s%p1%s", &[Text(b"a\0"), Text(b"bc")])?.0, b"bca\0");
    assert_eq!(with_texts(b"%i%p1%s%p2%d", &[Text(b"x"), Number(7)])?.0, b"x8");
    assert_eq!(with_texts(b"%p1%s%p9%l%d", &[Text(b"")]), Err(Refusal::Kind { at: 8 }));
    assert_eq!(with_texts(b"%p1%s%p1%l%d", &[Text(b"")])?, (b"0".to_vec(), 5));
    assert_eq!(with_texts(b"%p1%d", &[Text(b"5")]), Err(Refusal::Kind { at: 3 }));
    assert_eq!(with_texts(b"%p1%+", &[Text(b"5")]), Err(Refusal::StackEmpty { at: 3 }));
    assert_eq!(with_texts(b"%p1%5s", &[Text(b"5")]), Err(Refusal::Expansion { at: 3 }));
    assert_eq!(expanded(pfkey, &[1]), Err(Refusal::Kind { at: 12 }));
    assert_eq!(expanded(b"%s", &[]), Err(Refusal::StackEmpty { at: 0 }));
    let (most, more) = ([b'x'; 1000], [b'x'; 1001]);
    assert_eq!(with_texts(b"%p1%s", &[Text(&most)])?.0, most);
    assert_eq!(with_texts(b"", &[Number(0), Text(&more)]), Err(Refusal::Length));
    for string in [&b"%i%p1%d"[..], b"%p1%99d", b"%", b"%+", b"%?%p2%t%s%;"] {
        assert_eq!(with_texts(string, &[Number(5)]), expanded(string, &[5]));
    }
    Ok(())
}

#[test]
fn an_expansion_with_texts_is_within_its_bounds() {
    const ROOM: usize = expand_texts_room(1000, 200);
    let (string, text) = (b"%p1%s".repeat(200), [b'x'; 1000]);
    assert_eq!((string.len(), ROOM, expand_texts_room(1000, 500)), (1000, 225_000, 525_000));
    let (bytes, steps) = with_texts(&string, &[Argument::Text(&text)]).unwrap();
    assert_eq!((bytes.len(), steps), (200_000, 400));
    assert_eq!(expand_texts_room(7, 0), expand_room(7));
    assert_eq!(expand_texts_room(usize::MAX, 1), usize::MAX);
    assert_eq!((expand_texts_room_any(1000), expand_texts_room_any(usize::MAX)), (525_000, usize::MAX));
    assert!((0..2000).all(|n| expand_texts_room(n, n / 2) <= expand_texts_room_any(n)));
}

#[test]
fn an_expansion_is_within_its_bounds() {
    const ROOM: usize = expand_room(994);
    let string = b"%p1%99d".repeat(142);
    assert_eq!((string.len(), ROOM), (994, 24_850));
    let (bytes, steps) = expanded(&string, &[1]).unwrap();
    assert_eq!((bytes.len(), steps), (142 * 99, 284));
    for string in [&b""[..], b"x", b"%%", b"%{1}%9d", b"%p1%o", b"%?%p1%t%p1%099d%;", &string] {
        let (bytes, steps) = expanded(string, &[i32::MIN]).unwrap();
        assert!(bytes.len() <= expand_room(string.len()) && steps <= string.len());
    }
}

#[test]
fn lasting_variables_last_unless_refused() -> Result<(), Refusal> {
    let mut lasting = Lasting::default();
    expand(b"%p1%PZ", values(&[7]), &mut lasting)?;
    assert_eq!((lasting.get(b'Z'), lasting.get(b'A'), lasting.get(b'a')), (Some(7), Some(0), None));
    assert_eq!(expand(b"%gZ%99d", values(&[]), &mut lasting)?.bytes.last(), Some(&b'7'));
    let before = lasting;
    assert_eq!(expand(b"%p1%PZ%d", values(&[9]), &mut lasting), Err(Refusal::StackEmpty { at: 6 }));
    assert_eq!(lasting, before);
    Ok(())
}

#[test]
fn a_refusal_says_what_it_is() {
    assert_eq!(
        Refusal::Unknown { at: 19 }.to_string(),
        "unknown capability, or one of another kind (refusal 11, byte 19)"
    );
    assert_eq!(
        Refusal::Room { needed: 5 }.to_string(),
        "too little room (refusal 8, 5 bytes are needed)"
    );
    assert_eq!(
        Refusal::Kind { at: 3 }.to_string(),
        "an item takes a value of the other kind, a number or a text (refusal 21, byte 3)"
    );
    assert_eq!((Refusal::Place.number(), Refusal::Place.at()), (17, None));
    assert_eq!((Refusal::Names { at: 43 }.at(), Refusal::Names { at: 0 }.at()), (Some(43), None));
    assert_eq!(
        MergeRefusal::Second(Refusal::Number { at: 66 }).to_string(),
        "the second file: wrong number slot (refusal 6, byte 66)"
    );
    assert_eq!(
        MergeRefusal::Neither(Refusal::Size).to_string(),
        "the file would be longer than 4,096 bytes (refusal 9)"
    );
}
