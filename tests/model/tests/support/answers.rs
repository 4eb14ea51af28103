use super::words::Width;

/// The word of an answer.
pub fn reply<W: Width>(name: &str, total: u64) -> W {
    let codes = [
        "unfinished",
        "found",
        "inserted",
        "present",
        "changed",
        "removed",
        "absent",
        "full",
        "capped",
        "held",
    ];
    let code = codes.iter().position(|&code| code == name).unwrap() as u64;
    W::word(code * W::ABOVE_TOTAL + total)
}
