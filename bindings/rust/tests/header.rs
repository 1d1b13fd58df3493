//! What is said again here of the C header: the refusals, the version and the sizes.
use jelmorand::Refusal;

const HEADER: &str = include_str!("../../c/jelmorand.h");

/// The rows of the header's list of refusals: number, name and sentence.
fn rows() -> Vec<(u32, &'static str, &'static str)> {
    HEADER.split("    GROUND(").skip(1).map(row).collect()
}

fn row(text: &'static str) -> (u32, &'static str, &'static str) {
    let (number, rest) = text.split_once(", JELMORAND_").expect("a number and a name");
    let (name, rest) = rest.split_once(", \\\n           \"").expect("a name and a sentence");
    let (sentence, _) = rest.split_once("\")").expect("a sentence");
    (number.parse().expect("a number"), name, sentence)
}

/// `JobTooShort` as `JOB_TOO_SHORT`.
fn header_name(refusal: &Refusal) -> String {
    let upper = |letter: char| letter.is_uppercase().then_some('_').into_iter().chain(letter.to_uppercase());
    format!("{refusal:?}").chars().flat_map(upper).skip(1).collect()
}

#[test]
fn refusals_are_the_header_s() {
    let named: Vec<String> = Refusal::ALL.iter().map(header_name).collect();
    let known: Vec<_> =
        Refusal::ALL.iter().zip(&named).map(|(refusal, name)| (refusal.number(), &name[..], refusal.sentence())).collect();
    assert_eq!(known, rows());
    assert_eq!(known.len(), 24);
}

#[test]
fn number_and_ground_are_one() {
    for refusal in Refusal::ALL {
        assert_eq!(Refusal::from_number(refusal.number()), *refusal);
        assert_eq!(refusal.to_string(), refusal.sentence());
    }
}

#[test]
fn unknown_refusal_keeps_its_number() {
    for number in [0, 25, u32::MAX] {
        let refusal = Refusal::from_number(number);
        assert_eq!((refusal, refusal.number()), (Refusal::Other(number), number));
        assert_eq!(refusal.to_string(), format!("a ground that this version does not know, number {number}"));
        assert!(include_str!("../../c/refusals.c").contains(&format!("return \"{}\";", refusal.sentence())));
    }
}

/// What the header defines under this name.
fn defined(name: &str) -> u32 {
    let (_, rest) = HEADER.split_once(&format!("#define JELMORAND_{name} ")).expect("a definition");
    rest.lines().next().and_then(|number| number.parse().ok()).expect("a number")
}

#[test]
fn version_is_the_header_s_and_the_archive_s() {
    assert_eq!(jelmorand::VERSION, defined("VERSION"));
    assert_eq!(jelmorand::library_version(), i64::from(jelmorand::VERSION));
}

#[test]
fn sizes_are_the_header_s() {
    assert_eq!(jelmorand::REPORT_ROOM, defined("REPORT_ROOM") as usize);
    assert_eq!(jelmorand::MAX_MEMBERS, defined("MAX_MEMBERS") as usize);
    assert_eq!(jelmorand::MAX_RATES, defined("MAX_RATES") as usize);
    assert_eq!(jelmorand::JOB_LENGTH, defined("JOB_LENGTH") as usize);
    assert_eq!(jelmorand::COEFFICIENTS_LENGTH, defined("COEFFICIENTS_LENGTH") as usize);
    assert_eq!(jelmorand::TABLE_ROOM, defined("TABLE_ROOM") as usize);
    assert_eq!(jelmorand::MAX_PERIODS, defined("MAX_PERIODS") as usize);
    assert_eq!(jelmorand::MAX_MINUTES, defined("MAX_MINUTES"));
}
