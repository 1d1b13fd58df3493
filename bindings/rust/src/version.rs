//! The version of this package, and that of the archive it is linked with.
use crate::library;

/// The version of this package: major · 1,000,000 + minor · 1,000 + patch, so that 10,000 is 0.10.0.
pub const VERSION: u32 = number_in(env!("CARGO_PKG_VERSION"));

/// The number of a version such as `0.10.0`, whose parts are below 1,000.
const fn number_in(version: &str) -> u32 {
    let (mut number, mut part, mut at) = (0, 0, 0);
    while at < version.len() {
        match version.as_bytes()[at] {
            b'.' => (number, part) = ((number + part) * 1_000, 0),
            digit => part = 10 * part + (digit - b'0') as u32,
        }
        at += 1;
    }
    number + part
}

/// The version of the archive that this package is linked with, in the form of `VERSION`.
pub fn library_version() -> i64 {
    library::version()
}

/// Whether an archive of that version answers as this package expects: the same major and minor number, and no lower patch number.
fn fits(archive: i64) -> bool {
    let own = i64::from(VERSION);
    archive / 1_000 == own / 1_000 && archive >= own
}

/// Before every call, since there is no moment at which an archive is loaded. Such an archive was linked by mistake, and a job could
/// mean something else to it.
pub(crate) fn check() {
    let archive = library_version();
    assert!(fits(archive), "libjelmorand.a is version {archive}, and this package is version {VERSION}");
}

#[cfg(test)]
mod tests {
    use super::{fits, number_in, VERSION};

    #[test]
    fn number_has_three_digits_a_part() {
        for (version, number) in [("0.10.0", 10_000), ("1.0.0", 1_000_000), ("2.34.567", 2_034_567)] {
            assert_eq!(number_in(version), number);
        }
    }

    #[test]
    fn later_patches_alone_fit() {
        let own = i64::from(VERSION);
        for version in [own, own + 1, own / 1_000 * 1_000 + 999] {
            assert!(fits(version), "{version}");
        }
        for version in [own - 1, own / 1_000 * 1_000 + 1_000, own + 1_000_000, own - 1_000, 0, -1] {
            assert!(!fits(version), "{version}");
        }
    }
}
