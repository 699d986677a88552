//! The flight log.

use super::{plain, Made, Section, Tick, REFUSALS, REQUESTS};
use crate::conform::{word_of, Level};
use compare::generate::Rng;
use compare::log::RECORD;

pub const SECTIONS: &[Made] = &[
    Made {
        file: "32-log",
        name: "a log that is written and read back",
        words: &["Reading back gives exactly what was appended, then nothing."],
        place: REQUESTS,
        level: Level::Bits,
        lines: read_back,
    },
    Made {
        file: "33-log-bytes",
        name: "a log's bytes",
        words: &["An append puts a record where the trailer stood and a new trailer after it."],
        place: REQUESTS,
        level: Level::Bytes,
        lines: bytes,
    },
    Made {
        file: "34-log-ends",
        name: "logs of 0, 65,534 and 65,535 records",
        words: &["no room; of flags, a buffer of another length than the list's, or more than 65,535 margins"],
        place: REFUSALS,
        level: Level::Bytes,
        lines: ends,
    },
    Made {
        file: "35-log-refused",
        name: "every refusal of a log's calls, and every pair",
        words: &[
            "the input is not a tick's 68 bytes; what takes the count, the verdict or the route's length is not 4",
            "bytes that are no log",
            "no such record; a buffer that is not 108 bytes",
        ],
        place: REFUSALS,
        level: Level::Bytes,
        lines: refused,
    },
];

/// The trailer of so many records, and any other.
pub fn trailer(count: usize) -> String {
    words([count as u32, (RECORD * count) as u32, RECORD as u32])
}

fn words(words: [u32; 3]) -> String {
    plain(&words.map(u32::to_le_bytes).concat())
}

/// A record of any bits, by its two parts.
pub fn parts(rng: &mut Rng) -> (String, String) {
    let bytes: Vec<u8> =
        (0..RECORD / 4).flat_map(|_| if rng.flag() { rng.bits() as u32 } else { rng.special().to_bits() }.to_le_bytes()).collect();
    (plain(&bytes[..68]), plain(&bytes[68..]))
}

fn read_back(s: &mut Section) {
    let mut rng = Rng::new("kit logs", 0);
    for records in [0, 1, 2, 5, 20] {
        s.ask("log");
        for place in 0..records {
            let (input, answer) = parts(&mut rng);
            s.ask(format!("append {input} {answer}"));
            if place % 3 == 0 {
                s.ask("count");
                s.ask(format!("record {place}"));
            }
        }
        s.ask("count");
        for place in [0, 1, records / 2, records.max(1) - 1, records, records + 1, 1 << 16, 1 << 32, (1 << 32) + records.min(1), u64::MAX] {
            s.ask(format!("record {place}"));
        }
    }
}

fn bytes(s: &mut Section) {
    let mut rng = Rng::new("kit log bytes", 0);
    for count in [0, 1, 3] {
        for room in [107, 108, 109, 324] {
            let held: String = (0..count)
                .map(|_| {
                    let (input, answer) = parts(&mut rng);
                    input + &answer
                })
                .collect();
            s.ask(format!("log {}{} 3c*{room}", if count > 0 { format!("{held}+") } else { held }, trailer(count)));
            let (input, answer) = parts(&mut rng);
            s.ask(format!("append {input} {answer}"));
            s.ask(format!("bytes 0 {}", RECORD * count + 12 + room));
            s.ask("count");
            s.ask(format!("record {count} 5a*108"));
        }
    }
    // NaNs of every kind, byte for byte
    s.ask("log");
    let odd = "0100807f+ffffffff+0000c0ff+0000c07f";
    s.ask(format!("append {odd}+00*52 {odd}+00*24"));
    s.ask("record 0");
    s.ask("bytes 0 120");
}

fn ends(s: &mut Section) {
    let (input, answer) = ("aa*68", "bb*40");
    for count in [0, 65_534, 65_535, 65_536] {
        let log = if count > 0 {
            format!("{}*{count}+{}", "0102030405060708090a0b0c*9".replace("*9", "").repeat(9), trailer(count))
        } else {
            trailer(0)
        };
        for room in [107, 108, 109] {
            s.ask(format!("log {log} 3c*{room}"));
            s.ask("count a5*4");
            if room == 108 {
                for place in [0, 1, 65_533, 65_534, 65_535, 65_536] {
                    s.ask(format!("record {place} a5*108"));
                }
            }
            s.ask(format!("append {input} {answer}"));
            s.ask("count a5*4");
            s.ask(format!("bytes {} 260", (RECORD * count).saturating_sub(20)));
        }
    }
    // and one after the other from there
    s.ask(format!("log 11*{}+{} 3c*324", RECORD * 65_533, trailer(65_533)));
    for _ in 0..3 {
        s.ask(format!("append {input} {answer}"));
        s.ask("count");
    }
}

fn refused(s: &mut Section) {
    let tick = word_of(&Tick::still().bytes());
    let two = "11*108+22*108";
    let whole = format!("{two}+{}", trailer(2));
    let n = 228;
    // logs that are none, by each word of their trailer
    let mut logs = vec![
        whole.clone(),
        format!("33+{whole}"),
        format!("{two}+00+{}", trailer(2)),
        "-".to_string(),
        "00*11".to_string(),
        "00*12".to_string(),
    ];
    for [count, back, last] in [
        [3, 216, 108],
        [1, 216, 108],
        [2 | 1 << 16, 216, 108],
        [2 | 1 << 30, 216, 108],
        [2 | 3 << 30, 216, 108],
        [2, 217, 108],
        [2, 0, 108],
        [2, 228, 108],
        [2, 108, 108],
        [1, 108, 108],
        [2, 216, 107],
        [2, 216, 109],
        [2, 216, 0],
        [0, 0, 108],
        [2 << 8, 216, 108],
        [u32::MAX, 216, 108],
    ] {
        logs.push(format!("{two}+{}", words([count, back, last])));
    }
    for log in &logs {
        s.ask(format!("log {log} 3c*200"));
        for room in ["a5*4", "a5*3", "a5*5", "-"] {
            s.ask(format!("count {room}"));
        }
        for (place, room) in [(0, "a5*108"), (1, "a5*108"), (2, "a5*108"), (3, "a5*108"), (0, "a5*107"), (9, "a5*109"), (0, "-")] {
            s.ask(format!("record {place} {room}"));
        }
        s.ask(format!("append {tick} bb*40"));
        s.ask("bytes 0 440");
    }
    // append: every pair of a wrong input, a wrong answer, no log, no room
    for input in [tick.clone(), "aa*67".to_string(), "aa*69".to_string(), "-".to_string()] {
        for answer in ["bb*40", "bb*39", "bb*41", "-"] {
            for log in [whole.clone(), format!("{two}+{}", words([3, 216, 108]))] {
                for room in ["3c*108", "3c*107", "-"] {
                    s.ask(format!("log {log} {room}"));
                    s.ask(format!("append {input} {answer}"));
                    s.ask("bytes 200 200");
                }
            }
        }
    }
    // lengths that the buffer has not
    s.ask(format!("log {whole} 3c*300"));
    for length in [0, 11, 12, n - 1, n + 1, n + 108, n + 300, n + 301, (1 << 32) + n, (1 << 33) + n, (1 << 63) + n, u64::MAX, u64::MAX - 11]
    {
        s.ask(format!("append {tick} bb*40 {length}"));
    }
    s.ask("bytes 0 528");
    s.ask("count");
}
