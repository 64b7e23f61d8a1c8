//! Compares each struct and each number with what the C compiler says of `include/osi.h`, by the
//! program `bindings/layout.c`. Where that or a C compiler is not there, these tests say so and pass.

use super::*;
use crate::judges::{KINDS, RULES, SAID};
use crate::{
    Classes, Direction, Ending, Error, Indication, JudgedSide, Phase, Refusal, Side, Tokens, Trace, Units,
};
use std::collections::BTreeMap;
use std::env;
use std::mem::{align_of, offset_of, size_of};
use std::path::Path;
use std::process::Command;

/// The output of `layout.c`: the numbers after each name. `None` if there is no C compiler.
fn layout(test: &str) -> Option<BTreeMap<String, Vec<usize>>> {
    let bindings = Path::new(env!("CARGO_MANIFEST_DIR")).parent()?;
    let source = bindings.join("layout.c");
    let include = bindings.parent()?.join("include");
    let program = env::temp_dir().join(format!("osi-layout-{}-{test}", std::process::id()));
    let compiler = env::var("CC").unwrap_or_else(|_| "cc".to_string());
    if !source.is_file() {
        println!("not there: bindings/layout.c");
        return None;
    }
    let Ok(status) =
        Command::new(compiler).arg("-I").arg(include).arg(source).arg("-o").arg(&program).status()
    else {
        println!("not there: a C compiler");
        return None;
    };
    assert!(status.success());
    let output = Command::new(&program).output().unwrap();
    std::fs::remove_file(&program).unwrap();
    let text = String::from_utf8(output.stdout).unwrap();
    Some(text.lines().map(line).collect())
}

/// `field osi_terms.size 1 1` as its name and its numbers.
fn line(line: &str) -> (String, Vec<usize>) {
    let mut words = line.split(' ').skip(1);
    let name = words.next().unwrap().to_string();
    (name, words.map(|word| word.parse().unwrap()).collect())
}

/// The place of a field, and the size of what it is of.
fn place<S, T>(offset: usize, _: fn(S) -> T) -> Vec<usize> {
    vec![offset, size_of::<T>()]
}

macro_rules! lay {
    ($($name:ident: $($field:ident)*;)*) => {
        BTreeMap::from([$(
            (stringify!($name).to_string(), vec![size_of::<$name>(), align_of::<$name>()]),
            $(
                (
                    concat!(stringify!($name), ".", stringify!($field)).to_string(),
                    place(offset_of!($name, $field), |all: $name| all.$field),
                ),
            )*
        )*])
    };
}

#[test]
fn structs_are_laid_out_as_in_c() {
    let Some(mut of_c) = layout("structs") else { return };
    of_c.retain(|name, _| name.starts_with("osi_"));
    let here = lay! {
        osi_end: full inner;
        osi_octets: at length;
        osi_terms: classes size window;
        osi_sides: data minor major release;
        osi_opening: requirements serial wishes calling_tsap called_tsap calling_selector called_selector
            user_data size_from_asker size_from_answerer;
        osi_fault: fault si spelling parameter offset;
        osi_indication: tag number reference requirements has_number confirm tokens reason sides fault
            user_data size_from_asker size_from_answerer;
        osi_fed: used waits;
        osi_tsap: octets length;
        osi_selector: octets length;
        osi_addressing: calling_tsap called_tsap calling_selector called_selector;
        osi_tally: octets packets units tsdus session_units refused;
        osi_counters: received sent;
        osi_judge: full inner;
        osi_verdict: offset connection kind side by rule said left right;
    };
    assert_eq!(here, of_c);
}

/// A name in Rust as `osi.h` writes it: `TokenNotHeld` with `OSI_` is `OSI_TOKEN_NOT_HELD`.
fn c_name(prefix: &str, name: &str) -> String {
    let mut made = prefix.to_string();
    for (place, letter) in name.chars().enumerate() {
        if letter.is_uppercase() && place > 0 {
            made.push('_');
        }
        made.extend(letter.to_uppercase());
    }
    made
}

/// The name of a variant.
fn variant(value: impl std::fmt::Debug) -> String {
    let text = format!("{value:?}");
    text.split([' ', '(', '{']).next().unwrap().to_string()
}

fn values(names: &BTreeMap<String, Vec<usize>>, prefix: &str) -> BTreeMap<String, u32> {
    let named = names.iter().filter(|(name, _)| name.starts_with(prefix));
    named.map(|(name, numbers)| (name.clone(), numbers[0] as u32)).collect()
}

#[test]
fn errors_are_the_codes_of_c() {
    let Some(of_c) = layout("errors") else { return };
    let without = ["OSI_OK", "OSI_SLOT_EMPTY", "OSI_IN_USE", "OSI_NOTHING"];
    let mut named = 0;
    for code in 0..100 {
        let error = Error::of(code);
        assert_eq!(error.code(), code);
        if error == Error::Other(code) {
            let known = without.iter().any(|name| of_c[*name] == [code as usize]);
            assert!(known || !(1..=24).contains(&code) || (6..10).contains(&code), "{code} has no name");
        } else {
            assert_eq!(of_c[&c_name("OSI_", &variant(error))], [code as usize]);
            named += 1;
        }
    }
    assert_eq!(named, 17);
}

#[test]
fn endings_are_the_numbers_of_c() {
    let Some(of_c) = layout("endings") else { return };
    let mut awaited = values(&of_c, "OSI_END_");
    awaited.remove("OSI_END_NONE");
    let here: BTreeMap<_, _> = (1..100)
        .map(|number| (Ending::of(number, 7), number))
        .filter(|(ending, _)| !matches!(ending, Ending::Other { .. }))
        .map(|(ending, number)| (c_name("OSI_END_", &variant(ending)), number))
        .collect();
    assert_eq!(here, awaited);
}

#[test]
fn phases_are_the_numbers_of_c() {
    let Some(of_c) = layout("phases") else { return };
    let mut awaited = values(&of_c, "OSI_PHASE_");
    assert_eq!(awaited.remove("OSI_PHASE_NONE"), Some(0));
    assert_eq!(Phase::of(0), None);
    let known = (1..100).filter_map(|number| Phase::of(number).map(|phase| (phase, number)));
    let here: BTreeMap<_, _> =
        known.map(|(phase, number)| (c_name("OSI_PHASE_", &variant(phase)), number)).collect();
    assert_eq!(here, awaited);
}

fn shown(tag: u32) -> osi_indication {
    let none = osi_sides { data: 0, minor: 0, major: 0, release: 0 };
    osi_indication {
        tag,
        number: 0,
        reference: 1,
        requirements: 0,
        has_number: 0,
        confirm: 0,
        tokens: 0,
        reason: 0,
        sides: none,
        fault: osi_fault { fault: 2, si: 0, spelling: 0, parameter: 0, offset: 0 },
        user_data: lend(&[]),
        size_from_asker: 0,
        size_from_answerer: 0,
    }
}

#[test]
fn indications_are_the_tags_of_c() {
    let Some(of_c) = layout("indications") else { return };
    let mut known = 0;
    for tag in 0..100 {
        let Some(indication) = Indication::of(&shown(tag), &[]) else { continue };
        assert_eq!(of_c[&c_name("OSI_", &variant(indication))], [tag as usize]);
        known += 1;
    }
    assert_eq!((known, &of_c["OSI_NONE"]), (20, &vec![0]));
}

#[test]
fn sets_are_the_bits_of_c() {
    let Some(of_c) = layout("sets") else { return };
    let here = [
        ("OSI_CLASS_0", Classes::CLASS_0.bits().into()),
        ("OSI_CLASS_2", Classes::CLASS_2.bits().into()),
        ("OSI_HALF_DUPLEX", Units::HALF_DUPLEX.bits()),
        ("OSI_DUPLEX", Units::DUPLEX.bits()),
        ("OSI_MINOR_SYNC", Units::MINOR_SYNC.bits()),
        ("OSI_MAJOR_SYNC", Units::MAJOR_SYNC.bits()),
        ("OSI_RESYNCHRONIZE", Units::RESYNCHRONIZE.bits()),
        ("OSI_NEGOTIATED_RELEASE", Units::NEGOTIATED_RELEASE.bits()),
        ("OSI_TOKEN_DATA", Tokens::DATA.bits().into()),
        ("OSI_TOKEN_MINOR", Tokens::MINOR.bits().into()),
        ("OSI_TOKEN_MAJOR", Tokens::MAJOR.bits().into()),
        ("OSI_TOKEN_RELEASE", Tokens::RELEASE.bits().into()),
        ("OSI_ASKER", Side::Asker as u16),
        ("OSI_ANSWERER", Side::Answerer as u16),
        ("OSI_CHOICE", Side::Choice as u16),
        ("OSI_REFUSAL_UNSPECIFIED", Refusal::Unspecified.reason().into()),
        ("OSI_REFUSAL_CONGESTION", Refusal::Congestion.reason().into()),
        ("OSI_REFUSAL_WITH_DATA", Refusal::WithData(&[]).reason().into()),
        ("OSI_TRACE_OFF", Trace::Off as u16),
        ("OSI_TRACE_COUNTS", Trace::Counts as u16),
        ("OSI_TRACE_LINES", Trace::Lines as u16),
        ("OSI_RECEIVED", Direction::Received as u16),
        ("OSI_SENT", Direction::Sent as u16),
    ];
    for (name, bits) in here {
        assert_eq!(of_c[name], [usize::from(bits)], "{name}");
    }
    assert_eq!(Classes::BOTH, Classes::CLASS_0 | Classes::CLASS_2);
}

#[test]
fn verdicts_are_the_numbers_of_c() {
    let Some(mut of_c) = layout("verdicts") else { return };
    assert_eq!(of_c.remove("OSI_VERDICT_TEXT"), Some(vec![super::OSI_VERDICT_TEXT]));
    let kinds = KINDS.iter().map(|kind| (c_name("OSI_VERDICT_", &variant(kind)), *kind as u32));
    assert_eq!(kinds.collect::<BTreeMap<_, _>>(), values(&of_c, "OSI_VERDICT_"));
    let rules = RULES.iter().map(|rule| (c_name("OSI_RULE_", &variant(rule)), *rule as u32));
    assert_eq!(rules.collect::<BTreeMap<_, _>>(), values(&of_c, "OSI_RULE_"));
    let said = SAID.iter().map(|said| (c_name("OSI_SAID_", &variant(said)), *said as u32));
    assert_eq!(said.collect::<BTreeMap<_, _>>(), values(&of_c, "OSI_SAID_"));
    for side in [JudgedSide::Left, JudgedSide::Right] {
        assert_eq!(of_c[&c_name("OSI_", &variant(side))], [side as usize]);
    }
}
