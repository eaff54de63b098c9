//! Random damage of texts: nothing crashes, every fault has its place in the text, and what is
//! taken packs to a file that the load takes.

mod common;

use common::damage::{damaged, ODD};
use common::run_on;
use fanchuki::failure::Failure;
use fanchuki::given::is_packed;
use fanchuki::text::{self, Fault};
use reference::decode::decode;
use reference::encode::encode_stated;
use reference::random::Random;

const CASES: u64 = 12_000;

/// Every fault lies in the text, or just behind the end of its line, and they are in order.
fn held_to_places(text: &str, faults: &[Fault]) {
    assert!(!faults.is_empty(), "refused without a word:\n{text}");
    let lines: Vec<&str> = text.strip_prefix('\u{feff}').unwrap_or(text).lines().collect();
    for fault in faults {
        let line = lines.get(fault.place.line.wrapping_sub(1)).copied();
        let line = line.or((fault.place.line == 1).then_some("")).expect("its line is there");
        assert!((1..=line.chars().count() + 1).contains(&fault.place.column), "{fault}:\n{text}");
    }
    assert!(faults.windows(2).all(|two| two[0].place <= two[1].place), "{faults:?}:\n{text}");
    let said: Vec<(_, _)> = faults.iter().map(|fault| (fault.place, &fault.reason)).collect();
    assert!(said.windows(2).all(|two| two[0] != two[1]), "told twice: {faults:?}:\n{text}");
    let Failure::Refused(shown) = text::refused("t", text.as_bytes(), faults) else {
        panic!("it is a refusal");
    };
    assert!(shown.starts_with(&format!("t:{}\n", faults[0])), "{shown}");
    assert!(!shown.contains(|odd: char| odd.is_control() && !"\t\n".contains(odd)), "{shown:?}");
}

#[test]
fn damaged_texts_are_taken_or_told_of() {
    let (mut whole, mut refused) = (0, 0);
    for case in 0..CASES {
        let random = &mut Random::for_case(71, case);
        let text = damaged(random);
        match text::parse(&text) {
            Ok(named) => {
                whole += 1;
                let packed = encode_stated(&named.stated);
                assert_eq!(decode(&packed, named.stated.form()), Ok(named.stated), "{text}");
            }
            Err(faults) => {
                refused += 1;
                held_to_places(&text, &faults);
            }
        }
        if let Err(faults) = text::draft(&text) {
            held_to_places(&text, &faults);
        }
    }
    assert!(whole > 500 && refused > 5_000, "{whole} taken, {refused} refused");
}

/// The tool plans what is taken, and tells of what is not.
#[test]
fn the_tool_ends_as_it_should() {
    for case in 0..300 {
        let text = damaged(&mut Random::for_case(73, case));
        let ended = run_on(&["plan", "-"], text.as_bytes());
        match text::parse(&text) {
            _ if is_packed(text.as_bytes()) => assert_eq!(ended.code, 1, "{}\n{text}", ended.said),
            Ok(_) => {
                assert!(ended.code <= 1 && ended.said.is_empty(), "{}\n{text}", ended.said);
                assert!(!ended.printed.is_empty(), "{text}");
            }
            Err(faults) => {
                assert_eq!((ended.code, ended.printed.len()), (1, 0), "{}\n{text}", ended.said);
                let told = format!("standard input:{}\n", faults[0]);
                assert!(ended.said.starts_with(&told), "{told}{}", ended.said);
            }
        }
    }
}

/// Bytes that make no UTF-8 are told with a place too.
#[test]
fn changed_bytes_are_told_of() {
    let mut no_text = 0;
    for case in 0..3_000 {
        let random = &mut Random::for_case(74, case);
        let mut bytes = damaged(random).into_bytes();
        for _ in 0..random.between(1, 3) {
            let place = random.below(bytes.len() + 1);
            bytes.insert(place, random.between(0, 255) as u8);
        }
        match text::decoded(&bytes, "t") {
            Ok(text) => drop(text::parse(&text).map_err(|faults| held_to_places(&text, &faults))),
            Err(Failure::Refused(reason)) => {
                no_text += 1;
                let place: Vec<usize> = reason
                    .split(':')
                    .skip(1)
                    .take(2)
                    .map(|number| number.parse().unwrap())
                    .collect();
                let before = bytes.split(|&byte| byte == b'\n').nth(place[0] - 1).unwrap();
                assert!((1..=before.len()).contains(&place[1]), "{reason}");
            }
            Err(other) => panic!("{other:?}"),
        }
    }
    assert!(no_text > 1_000, "{no_text}");
}

/// Words of the statements and odd ones in no order at all.
#[test]
fn heaps_of_words() {
    for case in 0..4_000 {
        let random = &mut Random::for_case(72, case);
        let count = random.between(0, 60);
        let gaps = [" ", " ", "\n", ","];
        let text: String =
            (0..count).map(|_| [random.pick(&ODD), random.pick(&gaps)].concat()).collect();
        if let Err(faults) = text::parse(&text) {
            held_to_places(&text, &faults);
        }
    }
}

/// As long as the tool reads, and each by itself more than any query has.
#[test]
fn long_texts_take_no_long_time() {
    let long = |part: &str| part.repeat((1 << 20) / part.len());
    let counted = |part: fn(usize) -> String| (0..60_000).map(part).collect::<String>();
    let names = counted(|number| format!(" n{number}"));
    for text in [
        long("a"),
        long("size of "),
        long("0 "),
        long("site\n"),
        long("size of 0 is 1\n"),
        long("x\n"),
        format!("sites{names}"),
        format!("size of{names} is 1\nrelation r"),
        format!("site s\nrelations{names}\nsize of{}", long(" 0")),
        format!("sites 0 to 1\n{}", counted(|number| format!("line 0 to m{number} open\n"))),
        format!("sites{names}\n{}", counted(|number| format!("delivery to m{number}\n"))),
    ] {
        let begun = std::time::Instant::now();
        let faults = text::parse(&text).expect_err("no query");
        held_to_places(&text, &faults);
        assert!(begun.elapsed().as_secs() < 20, "{} of {:.40}", begun.elapsed().as_secs(), text);
    }
}
