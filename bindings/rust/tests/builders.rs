//! `Job` and `Book` against the stored examples, the recorded jobs, random books and the C header.
mod common;

use common::books::{any_rate, good_book};
use common::plain::{self, Chain};
use common::plain_second::own_set;
use common::random::Random;
use common::recorded;
use jelmorand::{Book, CoefficientSet, Coefficients, Exposure, Group, Job, Kind, Medium, Member, Unit, JOB_LENGTH};

const HEADER: &str = include_str!("../../c/jelmorand.h");
const BOOKS: usize = 2_000;

/// The bytes from a place on, as many as asked.
fn at<const N: usize>(job: &[u8], place: usize) -> [u8; N] {
    job[place..place + N].try_into().expect("so many bytes")
}

fn group(job: &[u8], place: usize) -> Group {
    let [days, years, quarter_hours, breathing] = [0, 2, 4, 6].map(|k| u16::from_le_bytes(at(job, place + k)));
    Group { days, years, quarter_hours, breathing }
}

/// A job's values, read by FORMAT.md's offsets.
fn job_of(job: &[u8]) -> Job {
    Job {
        rate: u32::from_le_bytes(at(job, 0)),
        kind: [Kind::Risk, Kind::Dose][usize::from(job[4])],
        medium: [Medium::IndoorAir, Medium::SoilGas, Medium::Groundwater][usize::from(job[5])],
        unit: [Unit::PciPerL, Unit::PciPerM3, Unit::BqPerM3][usize::from(job[6])],
        target: u32::from_le_bytes(at(job, 8)),
        attenuation: u32::from_le_bytes(at(job, 12)),
        value: f64::from_le_bytes(at(job, 16)),
        uncertainty: f64::from_le_bytes(at(job, 24)),
        exposure: Exposure { child: group(job, 32), adult: group(job, 40) },
    }
}

/// A book of the chain's members, and of its feeds in this order, each with the member that it feeds.
fn put_together(chain: &Chain, feeds: &[(usize, usize)]) -> Vec<u8> {
    let mut book = Book::new(chain.divisor);
    for member in &chain.members {
        let [inhalation_risk, submersion_risk, inhalation_dose, submersion_dose, weight] = member.numbers;
        let half_life = member.half_life;
        book.member(Member { half_life, inhalation_risk, submersion_risk, inhalation_dose, submersion_dose, weight });
    }
    for (j, into) in feeds {
        book.feed(chain.feeds[*j].share, chain.feeds[*j].from, *into);
    }
    book.bytes()
}

/// The chain's coefficients as a second set.
fn second_set(chain: &Chain) -> Vec<u8> {
    let bytes = |member: &plain::Member| {
        let [inhalation_risk, submersion_risk, inhalation_dose, submersion_dose, weight] = member.numbers;
        Coefficients { inhalation_risk, submersion_risk, inhalation_dose, submersion_dose, weight }.bytes()
    };
    chain.members.iter().flat_map(bytes).collect()
}

/// Each feed's place with the member that it feeds, member by member.
fn in_chains(chain: &Chain) -> Vec<(usize, usize)> {
    chain.fed_by.iter().enumerate().flat_map(|(i, list)| list.iter().map(move |j| (*j, i))).collect()
}

/// The same by the feeds' places, where each member takes them so.
fn by_place(chain: &Chain) -> Option<Vec<(usize, usize)>> {
    let mut feeds = in_chains(chain);
    feeds.sort();
    let rising = |list: &Vec<usize>| list.windows(2).all(|pair| pair[0] < pair[1]);
    chain.fed_by.iter().all(rising).then_some(feeds)
}

#[test]
fn examples_are_put_together() {
    for name in ["radon", "thoron", "actinon", "guide", "workroom"] {
        let path = format!("{}/../../examples/{name}.job", env!("CARGO_MANIFEST_DIR"));
        let job = std::fs::read(path).expect("the example's job");
        let chain = plain::read(&job[JOB_LENGTH..]).expect("a good book");
        let feeds = by_place(&chain).expect("feeds in order");
        assert_eq!(job_of(&job).with_book(&put_together(&chain, &feeds)), job, "{name}");
    }
}

/// Those that are accepted; others may hold what no value stands for.
#[test]
fn recorded_jobs_are_put_together() {
    let mut books = 0;
    for job in recorded::jobs(recorded::REPORT).iter().filter(|job| jelmorand::screen(job).is_ok()) {
        assert_eq!(job_of(job).bytes(), job[..JOB_LENGTH], "{job:?}");
        let chain = plain::read(&job[JOB_LENGTH..]).expect("a good book");
        assert_eq!(second_set(&chain), own_set(job, chain.members.len()), "{job:?}");
        if let Some(feeds) = by_place(&chain) {
            assert_eq!(put_together(&chain, &feeds), job[JOB_LENGTH..], "{job:?}");
            books += 1;
        }
    }
    assert!(books > 100, "only {books} books could be compared");
}

/// Where a member takes its feeds in another order the bytes differ, and no factor does.
#[test]
fn random_books_are_put_together() {
    let mut random = Random::fresh("builders");
    for count in 0..BOOKS {
        let (rate, book) = (any_rate(&mut random), good_book(&mut random));
        let chain = plain::read(&book).expect("a good book");
        let made = put_together(&chain, &in_chains(&chain));
        let (mut expected, mut list) = ([0; jelmorand::MAX_MEMBERS], [0; jelmorand::MAX_MEMBERS]);
        let answers = (jelmorand::factors(rate, &made, &mut list), jelmorand::factors(rate, &book, &mut expected));
        assert_eq!((answers.0, list), (answers.1, expected), "book {count}: {book:?}");
        assert_eq!(made.len(), book.len());
    }
}

fn book_of(members: usize, feeds: &[(usize, usize)]) -> Book {
    let member =
        Member { half_life: 1, inhalation_risk: 0, submersion_risk: 0, inhalation_dose: 0, submersion_dose: 0, weight: 0 };
    let mut book = Book::new(1_000);
    for _ in 0..members {
        book.member(member);
    }
    for (from, into) in feeds {
        book.feed(1, *from, *into);
    }
    book
}

/// Also where the byte of a count could hold what is left of it.
#[test]
fn what_is_wrong_is_refused() {
    let number = |book: Book| jelmorand::factors(0, &book.bytes(), &mut [0; 300]).map_err(|refusal| refusal.number());
    for members in [0, 17, 255, 256, 257, 272] {
        assert_eq!(number(book_of(members, &[])), Err(10), "{members} members");
    }
    for feeds in [65, 255, 256, 257] {
        assert_eq!(number(book_of(2, &vec![(0, 1); feeds])), Err(10), "{feeds} feeds");
    }
    for (from, into, refusal) in [(0, 2, 15), (2, 1, 14), (256, 1, 14), (usize::MAX, 1, 14), (0, 257, 15), (1, 1, 17)] {
        assert_eq!(number(book_of(2, &[(from, into)])), Err(refusal), "{from} into {into}");
    }
    assert_eq!(number(book_of(2, &[])), Err(16));
    assert_eq!(number(book_of(2, &[(0, 1)])), Ok(2));
}

/// `IndoorAir` as `INDOOR_AIR`, with its number.
fn listed(name: &str, number: u8) -> String {
    let upper = |letter: char| letter.is_uppercase().then_some('_').into_iter().chain(letter.to_uppercase());
    let name: String = name.chars().flat_map(upper).collect();
    format!("JELMORAND{name} = {number}")
}

#[test]
fn values_are_the_header_s() {
    let kinds = [Kind::Risk, Kind::Dose].map(|kind| listed(&format!("{kind:?}"), kind as u8));
    let media = [Medium::IndoorAir, Medium::SoilGas, Medium::Groundwater].map(|one| listed(&format!("{one:?}"), one as u8));
    let units = [Unit::PciPerL, Unit::PciPerM3, Unit::BqPerM3].map(|unit| listed(&format!("{unit:?}"), unit as u8));
    for (name, values) in [("kind", kinds.join(", ")), ("medium", media.join(", ")), ("unit", units.join(", "))] {
        assert!(HEADER.contains(&format!("enum jelmorand_{name} {{ {values} }};")), "{name}: {values}");
    }
}

#[test]
fn sets_are_the_header_s() {
    let numbers = [CoefficientSet::Book, CoefficientSet::Second].map(|set| listed(&format!("{set:?}Set"), set as u8));
    assert!(HEADER.contains(&format!("enum jelmorand_coefficient_set {{ {} }};", numbers.join(", "))), "{numbers:?}");
}

#[test]
fn exposures_are_the_header_s() {
    let numbers = |group: Group| [group.days, group.years, group.quarter_hours, group.breathing];
    for (name, exposure) in [("RESIDENTIAL", Exposure::RESIDENTIAL), ("WORKER", Exposure::WORKER)] {
        let list = [numbers(exposure.child), numbers(exposure.adult)].concat();
        let list: Vec<String> = list.iter().map(|number| number.to_string()).collect();
        assert!(HEADER.contains(&format!("#define JELMORAND_{name} {{{}}}\n", list.join(", "))), "{name}: {list:?}");
    }
}
