//! Logs that go on: cut anywhere they get the verdict of the whole.

use fosavalo::{
    Image, Log, LogSeries, LogView, Pilot, Profile, Record, SeriesCheck, SetUp, TickInput, Verdict, MOST_IN_SERIES, MOST_RECORDS,
};

struct Random(u64);

impl Random {
    fn below(&mut self, n: usize) -> usize {
        self.0 ^= self.0 << 13;
        self.0 ^= self.0 >> 7;
        self.0 ^= self.0 << 17;
        (self.0 >> 33) as usize % n
    }
}

fn record(flag: u32, margin: f32, command: u32) -> Record {
    let mut bytes = [0; 108];
    bytes[80..84].copy_from_slice(&command.to_le_bytes());
    bytes[92..96].copy_from_slice(&flag.to_le_bytes());
    bytes[104..].copy_from_slice(&margin.to_le_bytes());
    Record::from_bytes(&bytes).expect("it has the length")
}

fn log(records: &[Record]) -> Log {
    let mut log = Log::with_capacity(records.len());
    log.try_extend(records.iter().copied()).expect("it fits");
    log
}

fn pieces(logs: &[Log], profile: Profile, enter: f32, exit: f32) -> Verdict {
    let mut check = SeriesCheck::new(profile, enter, exit);
    for log in logs {
        check.log(log.view()).expect("no log is refused");
    }
    check.verdict()
}

/// A hundred thousand random logs, right and wrong, with margins at and beside the thresholds, cut at random places, empty pieces among them: the whole
/// log's verdict and place.
#[test]
fn cut_anywhere() {
    let share = std::env::var("FOSAVALO_SHARE").ok().and_then(|share| share.parse().ok()).unwrap_or(1).max(1);
    let margins = [0.25, 0.5, 0.75, 1.0, 1.5, f32::NAN, f32::INFINITY, f32::NEG_INFINITY, -1.0, f32::MAX, 0.1, 0.15, 0.3, 1e-45, 3e-45];
    let (mut random, mut verdicts, mut carried) = (Random(88172645463325252), [0; 2], 0);
    for round in 0..100_000 / share {
        let (enter, exit) = [(0.5f32, 1.0f32), (0.5, f32::MAX), (f32::NAN, 1.0), (0.5, 0.25), (1e-45, 3e-45), (3e38, 0.0)][random.below(6)];
        let (low, high) =
            Image::set_up(&SetUp { enter, exit, ..SetUp::falcon_quad() }).map(|i| (i.enter(), i.exit())).expect("it is set up");
        let profile = [Profile::Whole, Profile::LostRotor][random.below(2)];
        let (mut records, mut engaged) = (Vec::new(), true);
        for _ in 0..random.below(14) {
            let margin = margins[random.below(margins.len())];
            engaged = if engaged { !(margin.is_finite() && margin > high) } else { !margin.is_finite() || margin < low };
            let spoiled = round % 3 != 0 && random.below(12) == 0;
            let flag = if spoiled { random.below(3) as u32 } else { u32::from(engaged) };
            let command = if round % 3 != 0 && random.below(40) == 0 { [1, 0x7fc0_0000][random.below(2)] } else { 0 };
            records.push(record(flag, margin, command));
        }
        let whole = log(&records).check(profile, enter, exit).expect("no log is refused");
        let mut cuts: Vec<usize> = (0..random.below(5)).map(|_| random.below(records.len() + 1)).chain([0, records.len()]).collect();
        cuts.sort_unstable();
        let logs: Vec<Log> = cuts.windows(2).map(|two| log(&records[two[0]..two[1]])).collect();
        assert_eq!(pieces(&logs, profile, enter, exit), whole, "round {round}: {cuts:?}");
        verdicts[usize::from(whole.is_right())] += 1;
        carried +=
            usize::from(cuts.iter().any(|cut| *cut > 0 && *cut < records.len() && records[cut - 1].answer().pilot == Pilot::Planner));
    }
    assert!(verdicts.iter().chain([&carried]).all(|count| *count > 10_000 / share), "{verdicts:?}, {carried}");
}

/// Full logs, of other boxes: one that takes no record ahead of it is still one piece of the flight, its last record too.
#[test]
fn full_logs() {
    let (released, kept) = (record(0, 1.5, 0), record(0, 0.75, 0));
    let mut records = vec![kept; 3 * MOST_RECORDS];
    records[0] = released;
    let logs = |records: &[Record]| records.chunks(MOST_RECORDS).map(log).collect::<Vec<_>>();
    assert_eq!(pieces(&logs(&records), Profile::Whole, 0.5, 1.0), Verdict::Right);
    for place in [0, 1, MOST_RECORDS - 1, MOST_RECORDS, 2 * MOST_RECORDS - 2, 2 * MOST_RECORDS - 1, 2 * MOST_RECORDS, 3 * MOST_RECORDS - 1]
    {
        let whole = std::mem::replace(&mut records[place], record(1, 0.75, 0x7f80_0000));
        assert_eq!(pieces(&logs(&records), Profile::Whole, 0.5, 1.0), Verdict::WrongAt(place));
        records[place] = whole;
    }
}

/// A flight of 900,000 ticks, which has both hands fly and crosses seams with either: it rolls over with no record lost, and is right as a series.
#[test]
fn a_quarter_of_an_hour() {
    let set_up = SetUp::falcon_quad();
    let (mut image, mut series, mut random) = (Image::set_up(&set_up).expect("it is set up"), LogSeries::new(), Random(7));
    let (mut flown, mut input) = (Vec::new(), TickInput::default());
    for tick in 0..900_000u32 {
        if tick % 500 == 0 {
            input.gyro.0[0] = random.below(200) as f32 / 100.0;
        }
        let answer = image.tick(&input).expect("no tick is refused");
        series.append(&input, &answer).expect("there is room");
        flown.push(Record::new(&input, &answer));
    }
    assert_eq!((series.len(), series.logs().len(), series.is_empty()), (900_000, 900_000usize.div_ceil(MOST_IN_SERIES), false));
    assert!(series.iter().eq(flown.iter().copied()));
    assert_eq!(series.check(set_up.profile, set_up.enter, set_up.exit), Ok(Verdict::Right));
    let ends: Vec<Pilot> = series.logs().iter().filter_map(|log| log.iter().last()).map(|last| last.answer().pilot).collect();
    assert!(ends.contains(&Pilot::Planner) && ends.contains(&Pilot::Fallback), "{ends:?}");
    // by themselves, as if a flight began there, some are not
    let alone = series.logs().iter().filter(|log| log.check(set_up.profile, set_up.enter, set_up.exit) != Ok(Verdict::Right)).count();
    assert!(alone > 0);
    let mut copy = LogSeries::new();
    copy.extend(flown);
    assert!(copy == series && copy.into_logs().iter().all(|log| LogView::from_bytes(log.as_bytes()).is_ok()));
}

/// What is refused changes nothing, also where a log would be begun; and an empty series is one empty log, which is right.
#[test]
fn refused_and_empty() {
    let mut series = LogSeries::default();
    assert_eq!((series.len(), series.is_empty(), series.logs()), (0, true, &[Log::new()][..]));
    assert_eq!(series.check(Profile::Whole, 0.5, 1.0), Ok(Verdict::Right));
    series.extend(std::iter::repeat(record(1, 0.0, 0)).take(MOST_IN_SERIES));
    let before = series.clone();
    for (input, answer, refusal) in [(67, 40, fosavalo::Refusal::InputLength), (68, 41, fosavalo::Refusal::AnswerLength)] {
        assert_eq!(series.append_bytes(&vec![0; input], &vec![0; answer]), Err(refusal));
        assert!(series == before && series.logs().len() == 1);
    }
    assert_eq!(series.append_bytes(&[0; 68], &[0; 40]), Ok(()));
    assert_eq!((series.logs().len(), format!("{series:?}")), (2, "LogSeries { logs: 2, len: 65535, .. }".to_string()));
}
