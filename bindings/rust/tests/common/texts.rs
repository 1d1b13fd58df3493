//! The library's answers as the programs write them.
use jelmorand::{Report, Verdict};

pub fn word(verdict: Verdict) -> &'static str {
    match verdict {
        Verdict::Below => "below",
        Verdict::Close => "close",
        Verdict::Above => "above",
    }
}

/// The text that a report with these fields has.
pub fn text_of(report: &Report) -> String {
    let factors: String = report.factors.iter().enumerate().map(|(i, grains)| format!("factor {i} {grains}\n")).collect();
    let working = match report.working {
        None => "equilibrium none\nworking none\n".to_owned(),
        Some(levels) => format!("equilibrium {}\nworking {}\n", levels.equilibrium, levels.micro),
    };
    let (air, verdict, level) = (report.concentration, word(report.verdict), report.level);
    format!("{factors}concentration {air}\nverdict {verdict}\nlevel {level}\n{working}")
}

/// The line that `fan` writes, of a rate or of the number of a refusal.
pub fn rate_line(answer: Result<Option<u32>, u32>) -> String {
    match answer {
        Ok(Some(rate)) => format!("rate {rate}"),
        Ok(None) => "rate none".to_owned(),
        Err(number) => format!("refused {number}"),
    }
}
