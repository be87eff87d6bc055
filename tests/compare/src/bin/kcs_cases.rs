//! Prints what a KCS port does on fixed lists of accesses, rule by rule of Ticket 3.
//!
//! kcs_cases ours|second: the proved library or the second implementation. tests/cases.sh compares what both print with the stored
//! tests/cases/kcs.txt.

use compare::kcs::{accesses, make, word, Access, Port, Record, Second, Seen, MOST};

/// The words of Ticket 3 and of its readings, with the lists that show them: `out` is the published read, up to idle.
const RULES: [(&str, &[&str]); 14] = [
    ("all status bits are 0 at first", &["s", "r s"]),
    (
        "a message is handed over with its last byte, as exactly the bytes of its write phase",
        &[
            "c61 r d18 r d01 r c62 r d02",
            "c61 r c62 r d18",
            "c61 r d00..3E r c62 r d3F",
            "c61 d60 d61 d62 d68 d00 c62 d60",
            "c61 d01 d02 d03 c61 d04 c62 d05",
            "c61 d01 c62 c61 d02 c62 d03",
            "c61 d01 d02 c62 d03 c61 c62 d04",
            "c63 c61 c62 d05",
        ],
    ),
    (
        "the published read gets exactly the response's",
        &[
            "c61 c62 d18 s a1C r d68 r",
            "c61 c62 d18 a1C01C1 r d68 r d68 r d68 r",
            "c61 c62 d18 a6860006162 r d68 r d68 r d68 r d68 r d68 r",
            "c61 c62 d18 a40..7F out",
            "c61 c62 d18 a40..7F out c61 c62 d19 a1D02 out",
        ],
    ),
    (
        "62 once in the write phase that 61 opens",
        &["c61 c62 c62", "c61 c62 c61 c62 d05", "c61 c63 c62", "c61 c60 c62", "c61 c62 d05 aAABB c61 c62 d06 aCC out"],
    ),
    ("any other command is a wrong code", &["c00 c5F c68 cFF c60 d00 r", "c61 c00 c60 d00 r"]),
    (
        "data while a response is awaited, and data the published flow doesn't write there, is a wrong code",
        &[
            "c61 c62 d05 d00 c60 d00 r",
            "c61 c62 d05 d68 c60 d00 r",
            "d00 c60 d00 r",
            "d68 c60 d00 r",
            "c61 c62 d05 aAABB r d00 c60 d00 r",
            "c60 r d68 c60 d00 r",
            "c60 r d01 c60 d00 r",
            "c60 r d00 r d00 c60 d00 r",
            "c60 r d00 r d68 r d68 c60 d00 r",
            "c63 r d68 c60 d00 r",
        ],
    ),
    ("OBF aside", &["c61 d01 d02 c62 d03", "c61 c62 d05 aAABBCC d68 d68 r d68 r", "c61 c62 d05 aAABB d00", "c60 d00 d68 c61"]),
    (
        "a write that completes a message clears OBF, each other sets it, with 00 where the standard names no byte",
        &["c60 r", "c61 r d05 r c62 r d06 r", "c61 c62 d05 aAA d68 r", "c61 c60 d00 r d68 r", "c63 r d05 r"],
    ),
    (
        "60 leads to the write state, its status that of the last error since idle or 61, otherwise 01 if 61 came since idle, else 00",
        &[
            "c60 d00 r",
            "c61 c60 d00 r",
            "c61 d05 c62 c60 d00 r",
            "c61 c62 d05 c60 d00 r",
            "c61 c62 d05 aAABB r c60 d00 r",
            "c61 c62 d05 aAA r d68 r c60 d00 r",
            "c61 c62 d05 a r c60 d00 r",
            "c63 c61 c60 d00 r",
            "c61 d00..40 c61 c60 d00 r",
            "c61 d00..40 c62 c60 d00 r",
            "c63 c60 r c60 r d00 r",
            "c61 c60 d00 r c60 d00 r d68 r c60 d00 r",
            "c61 c60 d05 c60 d00 r",
        ],
    ),
    (
        "a read with OBF clear gives 00 and changes nothing",
        &["c61 r r d05 r r c62 r r d06 r r aAABB r r d68 r r d68 r r", "c61 d00..40 r r c60 r r d00 r r c60 d00 r"],
    ),
    ("C/D# follows every write, refused ones too, and no response", &["c63 d05 c62 d68 c61 d05 c62 d06 aAA r d68"]),
    (
        "the published recovery, its 60 included, returns to idle from any state within six host accesses",
        &[
            "c60 r d00 r d68 r",
            "c61 c60 r d00 r d68 r",
            "c61 c62 c60 r d00 r d68 r",
            "c61 c62 d05 c60 r d00 r d68 r",
            "c61 c62 d05 aAABB c60 r d00 r d68 r",
            "c63 c60 c60 r d00 r d68 r",
            "c63 c60 d00 c60 r d00 r d68 r",
            "c61 d00..40 c60 r d00 r d68 r",
        ],
    ),
    (
        "an empty response leads to idle with OBF set on 00; one over 64 bytes or not awaited is refused, changing nothing",
        &[
            "c61 c62 d05 a r",
            "c61 c62 d05 a00..40 a00..C7 aAABB out",
            "aAA",
            "c61 aAA c62 aAA d05",
            "c61 c62 d05 aAABB aCC a out",
            "c61 c62 d05 a aAA",
            "c60 aAA d00 aAA r",
            "c63 aAA c60 d00 r",
        ],
    ),
    (
        "a wrong code (02), then a request beyond 64 bytes (06), both the error state, with that status after 60",
        &[
            "c61 d00..40 c60 d00 r",
            "c61 d00..3F c62 d40 c60 d00 r",
            "c61 d00..3F c62 c62 c60 d00 r",
            "c61 d00..3E c62 d3F d40 c60 d00 r",
            "c61 d00..41 c60 d00 r",
            "c61 d00..40 c61 d00..3E c62 d3F",
        ],
    ),
];

/// A way into each phase, and what is tried there.
const WAYS: [&str; 8] = ["", "c61", "c61 c62", "c61 c62 d05", "c61 c62 d05 aAABB", "c60", "c61 c60 d00", "c63"];
const TRIED: &str = "s r c60 c61 c62 c63 d00 d68 d55 a aCC";

/// Bytes; four and more that rise one by one are written as the first and the last.
fn bytes_text(bytes: &[u8]) -> String {
    let runs = bytes.chunk_by(|a, b| a.checked_add(1) == Some(*b));
    let text = runs.map(|run| match run {
        [first, _, _, .., last] => format!("{first:02X}..{last:02X}"),
        few => few.iter().map(|byte| format!("{byte:02X}")).collect::<Vec<_>>().join(" "),
    });
    text.collect::<Vec<_>>().join(" ")
}

/// What an access did.
fn outcome(port: &mut impl Port, access: &Access) -> String {
    let Seen { gave, status } = make(port, access);
    match access {
        Access::Status | Access::Read => format!("={gave:02X}>{status:02X}"),
        Access::Data(_) if gave != 0 => format!("={gave}>{status:02X} [{}]", bytes_text(port.message(gave))),
        Access::Command(_) | Access::Data(_) => format!(">{status:02X}"),
        Access::Answer(_) => format!("={}>{status:02X}", if gave == 1 { "taken" } else { "refused" }),
    }
}

/// The published read.
fn read_out(port: &mut impl Port) -> String {
    let mut bytes = Vec::new();
    while port.status() & 0xc1 == 0x41 && bytes.len() <= MOST {
        bytes.push(port.read_data());
        port.write_data(0x68);
    }
    port.read_data();
    format!("out=[{}]>{:02X}", bytes_text(&bytes), port.status())
}

/// A word with what it did; of data from one byte to another, those that did the same together.
fn word_text(port: &mut impl Port, text: &str) -> String {
    if text == "out" {
        return read_out(port);
    }
    let did: Vec<_> = word(text).iter().map(|access| (access.to_string(), outcome(port, access))).collect();
    if let [(_, outcome)] = &did[..] {
        return format!("{text}{outcome}");
    }
    let runs = did.chunk_by(|a, b| a.1 == b.1).map(|run| {
        let ((first, outcome), (last, _)) = (&run[0], &run[run.len() - 1]);
        let to = if run.len() == 1 { "".into() } else { format!("..{}", &last[1..]) };
        format!("{first}{to}{outcome}")
    });
    runs.collect::<Vec<_>>().join(" ")
}

fn print_cases<P: Port>(new: impl Fn() -> P) {
    println!("an access, = the byte it read, the length it told or whether a response was taken, > the status afterwards, [the message]");
    println!("every host access in every state has one outcome: each of these by itself");
    for way in WAYS {
        let mut port = new();
        for access in accesses(way) {
            make(&mut port, &access);
        }
        let tried = TRIED.split(' ').map(|text| word_text(&mut port.clone(), text));
        println!("  after {}: {}", if way.is_empty() { "nothing" } else { way }, tried.collect::<Vec<_>>().join(" | "));
    }
    for (rule, lists) in RULES {
        println!("{rule}");
        for list in lists {
            let mut port = new();
            let texts = list.split(' ').map(|text| word_text(&mut port, text));
            println!("  {}", texts.collect::<Vec<_>>().join(" "));
        }
    }
}

fn main() {
    match std::env::args().nth(1).as_deref() {
        Some("ours") => print_cases(Record::fresh),
        Some("second") => print_cases(Second::fresh),
        _ => panic!("kcs_cases ours|second"),
    }
}
