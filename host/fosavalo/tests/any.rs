//! Any bytes at all: nothing panics, what is written is read back, and the typed calls are the C calls.

use fosavalo::{
    calls, slow_flags, Answer, Image, Leg, Log, LogView, Pattern, Pilot, Profile, Record, Refusal, Route, SetUp, TickInput, Verdict,
};
use fosavalo::{ANSWER_BYTES, IMAGE_BYTES, LEG_BYTES, MOST_LEGS, ROUTE_TRAILER_BYTES, SETUP_BYTES, TICK_BYTES};
use fosavalo::{EMPTY_LOG, LOG_TRAILER_BYTES, MOST_MARGINS, MOST_RECORDS, RECORD_BYTES};

/// Bytes that look like anything: random ones, with words of special floats among them.
struct Bytes(u64);

impl Bytes {
    fn next(&mut self) -> u64 {
        self.0 = self.0.wrapping_add(0x9e37_79b9_7f4a_7c15);
        let x = (self.0 ^ (self.0 >> 30)).wrapping_mul(0xbf58_476d_1ce4_e5b9);
        let x = (x ^ (x >> 27)).wrapping_mul(0x94d0_49bb_1331_11eb);
        x ^ (x >> 31)
    }

    fn fill(&mut self, bytes: &mut [u8]) {
        const SPECIAL: [u32; 8] = [0, 0x8000_0000, 0x7fc0_0000, 0xff80_0001, 0x7f80_0000, 0xff80_0000, 0x3f80_0000, 0x0000_0001];
        for four in bytes.chunks_exact_mut(4) {
            let x = self.next();
            let word = if x & 3 == 0 { SPECIAL[(x >> 8) as usize % SPECIAL.len()] } else { (x >> 32) as u32 };
            four.copy_from_slice(&word.to_le_bytes());
        }
    }
}

#[test]
fn words_go_there_and_back() {
    let mut rng = Bytes(1);
    let (mut set_up, mut tick, mut answer) = ([0; SETUP_BYTES], [0; TICK_BYTES], [0; ANSWER_BYTES]);
    for _ in 0..100_000 {
        rng.fill(&mut set_up);
        rng.fill(&mut tick);
        rng.fill(&mut answer);
        answer[24..28].copy_from_slice(&((rng.next() & 1) as u32).to_le_bytes());
        let none = u32::from_le_bytes([set_up[200], set_up[201], set_up[202], set_up[203]]) > 1;
        assert_eq!(SetUp::from_bytes(&set_up).err(), none.then_some(Refusal::WrongProfile));
        set_up[200..].copy_from_slice(&((rng.next() & 1) as u32).to_le_bytes());
        assert_eq!(SetUp::from_bytes(&set_up).map(|s| s.to_bytes()), Ok(set_up));
        assert_eq!(TickInput::from_bytes(&tick).map(|t| t.to_bytes()), Ok(tick));
        assert_eq!(Answer::from_bytes(&answer).map(|a| a.to_bytes()), Ok(answer));
    }
}

#[test]
fn the_typed_calls_are_the_c_calls() {
    let mut rng = Bytes(2);
    let (mut set_up, mut tick, mut seen) = ([0; SETUP_BYTES], [0; TICK_BYTES], [0u32; 2]);
    for _ in 0..2_000 {
        rng.fill(&mut set_up);
        let mut bytes = [0xa5; IMAGE_BYTES];
        set_up[200..].copy_from_slice(&2u32.to_le_bytes());
        assert_eq!((calls::setup(&mut bytes, &set_up), bytes), (10, [0xa5; IMAGE_BYTES]));
        let profile = (rng.next() & 1) as u32;
        set_up[200..].copy_from_slice(&profile.to_le_bytes());
        // with any filter it is taken or refused with 11, as the typed call has it; then with one that is
        let number = calls::setup(&mut bytes, &set_up);
        let typed = SetUp::from_bytes(&set_up).and_then(|s| Image::set_up(&s));
        assert_eq!(typed.as_ref().err().and_then(|refusal| refusal.number()).unwrap_or(0), number);
        seen[usize::from(number == 11)] += 1;
        [80f32, 1000.0].iter().zip(48..).for_each(|(x, at)| set_up[4 * at..4 * at + 4].copy_from_slice(&x.to_le_bytes()));
        assert_eq!(calls::setup(&mut bytes, &set_up), 0);
        let mut image = SetUp::from_bytes(&set_up).and_then(|s| Image::set_up(&s)).expect("its gyro is filtered");
        assert_eq!(image.as_bytes(), &bytes);
        for _ in 0..20 {
            rng.fill(&mut tick);
            let mut answer = [0xa5; ANSWER_BYTES];
            assert_eq!(calls::tick(&mut bytes, &tick, &mut answer), 0);
            let typed = TickInput::from_bytes(&tick).and_then(|t| image.tick(&t)).expect("no tick from set-up is refused");
            assert_eq!(typed.to_bytes(), answer);
            assert_eq!(image.as_bytes(), &bytes);
            assert_eq!((image.pilot(), image.time().to_bits()), (typed.pilot, typed.time.to_bits()));
            assert_eq!(image.profile().map(Profile::word), Some(profile));
        }
    }
    assert!(seen.iter().all(|count| *count > 100), "{seen:?}");
}

fn floats(bytes: &[u8]) -> impl Iterator<Item = f32> + '_ {
    bytes.chunks_exact(4).map(|four| f32::from_le_bytes([four[0], four[1], four[2], four[3]]))
}

/// Legs of any bits that meet or do not, and bytes that are any: a route is made exactly where a tick takes it, and then it is those bytes.
#[test]
fn routes_of_any_legs() {
    let (mut rng, mut seen, mut apart, mut taken) = (Bytes(4), [0u32; 8], [0u32; MOST_LEGS], [0u32; MOST_LEGS + 1]);
    let mut fresh = [0; IMAGE_BYTES];
    assert_eq!(calls::setup(&mut fresh, &SetUp::falcon_quad().to_bytes()), 0);
    let mut tick = [0; TICK_BYTES];
    for round in 0..20_000 {
        rng.fill(&mut tick);
        let count = if rng.next() & 1 == 0 { MOST_LEGS } else { (rng.next() % (MOST_LEGS as u64 + 2)) as usize };
        let back = LEG_BYTES * count;
        let mut bytes = vec![0; back + ROUTE_TRAILER_BYTES];
        rng.fill(&mut bytes);
        // a NaN at a join would leave few routes of many legs
        if round % 16 != 3 {
            let ends = bytes.chunks_exact_mut(LEG_BYTES).flat_map(|leg| leg[36..72].chunks_exact_mut(4));
            ends.filter(|end| floats(end).any(f32::is_nan)).for_each(|end| end.copy_from_slice(&f32::INFINITY.to_le_bytes()));
        }
        let apart_from = if round % 4 == 0 { 1 + (rng.next() % MOST_LEGS as u64) as usize } else { count };
        (1..count.min(apart_from)).for_each(|leg| bytes.copy_within(LEG_BYTES * leg - 40..LEG_BYTES * leg - 4, LEG_BYTES * leg));
        if round % 8 != 1 {
            bytes[back..back + 4].copy_from_slice(&(count as u32).to_le_bytes());
        }
        if round % 8 != 2 {
            bytes[back + 4..].copy_from_slice(&(back as u32).to_le_bytes());
        }
        let (mut image, mut answer) = (fresh, [0xa5; ANSWER_BYTES]);
        let number = calls::route_tick(&mut image, &tick, &bytes, &mut answer);
        seen[number as usize] += 1;
        match Route::try_from(&bytes[..]) {
            Err(Refusal::LegsApart(leg)) => {
                // the first of which a number differs from the one before it, or is none
                let meets = |leg: &usize| {
                    let (end, start) = (LEG_BYTES * leg - 40, LEG_BYTES * leg);
                    floats(&bytes[end..end + 36]).eq(floats(&bytes[start..start + 36]))
                };
                assert_eq!((number, leg), (7, (1..count).find(|leg| !meets(leg))));
                apart[leg.unwrap_or(0)] += 1;
            }
            Err(refusal) => assert_eq!(refusal.number(), Some(number)),
            Ok(route) => {
                assert_eq!((number, route.as_bytes()), (0, &bytes[..]));
                taken[count] += 1;
                let legs: Vec<Leg> = route.legs().collect();
                assert_eq!((legs.len(), route.len(), Route::new(&legs)), (count, count, Ok(route.clone())));
                let mut typed = Image::from_bytes(&fresh).expect("it is 384 bytes long");
                let said = TickInput::from_bytes(&tick).and_then(|t| typed.route_tick(&t, &route)).expect("a route is checked");
                assert_eq!((said.to_bytes(), typed.as_bytes()), (answer, &image));
                let _ = format!("{route:?}");
            }
        }
    }
    assert!([0, 5, 6, 7].iter().all(|number| seen[*number] > 500), "{seen:?}");
    assert!(apart[0] == 0 && apart[1..].iter().all(|count| *count > 10), "{apart:?}");
    assert!(taken[0] == 0 && taken[1..].iter().all(|count| *count > 10), "{taken:?}");
}

/// What is appended is read back, byte for byte, and the log is that of the C calls; it may be stored and gone on with at any time.
#[test]
fn logs_of_any_records() {
    let mut rng = Bytes(5);
    for round in 0..300 {
        let records: Vec<[u8; RECORD_BYTES]> = (0..rng.next() % 40)
            .map(|_| {
                let mut record = [0; RECORD_BYTES];
                rng.fill(&mut record);
                record
            })
            .collect();
        let mut log = if round % 2 == 0 { Log::new() } else { Log::with_capacity(records.len()) };
        let (mut buffer, mut len) = ([0xa5; 40 * RECORD_BYTES], LOG_TRAILER_BYTES);
        buffer[..len].copy_from_slice(&EMPTY_LOG);
        let start = log.as_bytes().as_ptr();
        for (at, record) in records.iter().enumerate() {
            let (input, answer) = record.split_at(TICK_BYTES);
            assert_eq!(log.append_bytes(input, answer), Ok(()));
            assert_eq!(calls::log_append(&mut buffer, len as u64, input, answer), 0);
            len += RECORD_BYTES;
            assert_eq!((log.as_bytes(), log.len(), log.is_empty()), (&buffer[..len], at + 1, false));
            if round % 2 == 0 && rng.next() & 7 == 0 {
                log = Log::from_bytes(log.as_bytes()).expect("it is a log");
            }
        }
        assert!(round % 2 == 0 || log.as_bytes().as_ptr() == start, "it was moved");
        let mut read = LogView::from_bytes(log.as_bytes()).expect("it is a log").iter();
        for (at, record) in records.iter().enumerate() {
            assert_eq!(read.len(), records.len() - at);
            let said = read.next().expect("there is one more");
            assert_eq!((said.as_bytes(), log.view().get(at)), (record, Some(said)));
            assert!(said.words().iter().flat_map(|word| word.to_le_bytes()).eq(*record));
            let (input, answer) = record.split_at(TICK_BYTES);
            assert_eq!(said.input().to_bytes(), input);
            assert_eq!(Ok(said.answer().to_bytes()), Answer::from_bytes(answer).map(|answer| answer.to_bytes()));
            let _ = format!("{said:?} {log:?} {read:?}");
        }
        assert_eq!(
            (read.len(), read.next(), read.next(), log.iter().nth(records.len()), log.iter().nth(usize::MAX)),
            (0, None, None, None, None)
        );
        assert_eq!(log.iter().count(), records.len());
        let (mut copy, view) = (Log::new(), log.view());
        for record in &view {
            copy.try_extend([record]).expect("it fits");
        }
        copy.try_extend(view).expect("it fits");
        assert_eq!(copy.iter().map(|record| *record.as_bytes()).collect::<Vec<_>>(), [&records[..], &records[..]].concat());
        assert_eq!(log.clone().into_bytes(), log.as_bytes());
    }
}

/// Bytes of any length and content are a log exactly where the C call counts them.
#[test]
fn logs_of_any_bytes() {
    let (mut rng, mut logs) = (Bytes(6), 0);
    for round in 0..20_000usize {
        let mut bytes = vec![0; round % 400];
        rng.fill(&mut bytes);
        if let (Some(at), true) = (bytes.len().checked_sub(LOG_TRAILER_BYTES), round % 3 != 0) {
            let count = at / RECORD_BYTES + (rng.next() & 3 == 0) as usize;
            let words = [count, RECORD_BYTES * count, RECORD_BYTES];
            bytes[at..].iter_mut().zip(words.iter().flat_map(|w| (*w as u32).to_le_bytes())).for_each(|(own, byte)| *own = byte);
        }
        let mut count = [0xa5; 4];
        let number = calls::log_count(&bytes, &mut count);
        match LogView::try_from(&bytes[..]) {
            Err(refusal) => {
                assert_eq!((refusal, number, count), (Refusal::BrokenLog, 8, [0xa5; 4]));
                assert_eq!(Log::try_from(&bytes[..]), Err(Refusal::BrokenLog));
            }
            Ok(log) => {
                assert_eq!((number, log.len()), (0, u32::from_le_bytes(count) as usize));
                assert_eq!(log.iter().flat_map(|record| *record.as_bytes()).count() + LOG_TRAILER_BYTES, bytes.len());
                logs += 1;
            }
        }
    }
    assert!(logs > 50, "{logs}");
}

/// A full log takes no more, and is what it was; typed ticks go in as they come out.
#[test]
fn a_full_log() {
    let input = TickInput::default();
    let answer = Image::set_up(&SetUp::falcon_quad()).and_then(|mut image| image.tick(&input)).expect("no tick from set-up is refused");
    let mut log = Log::new();
    for _ in 0..MOST_RECORDS {
        assert_eq!(log.append(&input, &answer), Ok(()));
    }
    let full = log.clone();
    for _ in 0..3 {
        assert_eq!(log.append(&input, &answer), Err(Refusal::NoRoom));
        assert_eq!(log.append_bytes(&[0; 67], &[]), Err(Refusal::InputLength));
        assert_eq!(log.append_bytes(&[0; 68], &[]), Err(Refusal::AnswerLength));
    }
    assert_eq!(log.try_extend(&full), Err(Refusal::NoRoom));
    assert!(log == full && log.len() == MOST_RECORDS && log.iter().all(|record| record == Record::new(&input, &answer)));
    assert_eq!(Log::with_capacity(usize::MAX), Log::new());
}

/// Images of any bytes: a tick answers or refuses with 4, and then nothing is changed.
#[test]
fn images_of_any_bytes() {
    let mut rng = Bytes(3);
    let (mut bytes, mut refused) = ([0; IMAGE_BYTES], 0);
    for round in 0..100_000 {
        if round % 2 == 0 {
            rng.fill(&mut bytes);
        } else {
            // a whole image with one word replaced
            calls::setup(&mut bytes, &SetUp::falcon_quad().to_bytes());
            let at = 4 * (rng.next() % (IMAGE_BYTES as u64 / 4)) as usize;
            rng.fill(&mut bytes[at..at + 4]);
        }
        let mut image = Image::from_bytes(&bytes).expect("it is 384 bytes long");
        let _ = format!("{image:?} {} {} {} {:?}", image.enter(), image.exit(), image.time(), image.profile());
        if let Err(refusal) = image.tick(&TickInput::default()) {
            assert_eq!(refusal, Refusal::BrokenImage);
            assert_eq!(image.as_bytes(), &bytes);
            refused += 1;
        }
    }
    assert!((50_000..60_000).contains(&refused), "{refused}");
}

#[test]
fn wrong_lengths() {
    for n in 0..500 {
        let bytes = vec![0; n];
        let bytes = &bytes[..];
        assert_eq!(Image::try_from(bytes).map(Image::into_bytes).is_ok_and(|own| own == bytes), n == IMAGE_BYTES);
        assert_eq!(SetUp::try_from(bytes).is_ok(), n == SETUP_BYTES);
        assert_eq!(TickInput::try_from(bytes).is_ok(), n == TICK_BYTES);
        assert_eq!(Answer::try_from(bytes).is_ok(), n == ANSWER_BYTES);
        assert_eq!(Record::try_from(bytes).is_ok_and(|own| own.as_bytes() == bytes), n == RECORD_BYTES);
    }
}

/// Every number has words, and the number is kept.
#[test]
fn refusals() {
    assert_eq!(Refusal::from_number(0), Ok(()));
    for number in (1..20).chain([u32::MAX]) {
        let refusal = Refusal::from_number(number).expect_err("a number above 0 is a refusal");
        assert_eq!(refusal.number(), Some(number));
        assert!(refusal.to_string().contains(&format!("({number}): ")));
    }
}

/// Any words as margins and thresholds: the typed call is the C call, a pilot for each margin, and too many are refused.
#[test]
fn flags_of_any_margins() {
    let (mut rng, mut seen) = (Bytes(7), [0u32; 2]);
    for length in (0..400).chain([MOST_MARGINS]) {
        let mut words = vec![0; 4 * length + 8];
        rng.fill(&mut words);
        let (thresholds, margins) = words.split_at(8);
        let given: Vec<f32> = floats(thresholds).collect();
        let mut flags = vec![7; length];
        assert_eq!(calls::flags(margins, given[0], given[1], &mut flags), 0);
        let typed = slow_flags(&floats(margins).collect::<Vec<f32>>(), given[0], given[1]).expect("it is not too long");
        let pilots = flags.iter().map(|flag| [Pilot::Planner, Pilot::Fallback][usize::from(*flag)]);
        assert!(pilots.eq(typed));
        flags.iter().for_each(|flag| seen[usize::from(*flag)] += 1);
    }
    assert!(seen.iter().all(|count| *count > 1000), "{seen:?}");
    assert_eq!(slow_flags(&vec![1.0; MOST_MARGINS + 1], 0.5, 1.0), Err(Refusal::NoRoom));
}

/// A record of any bytes among those of a fallback that never lets go: the typed call is the C call, and says that all is right or names that record.
#[test]
fn checks_of_any_record() {
    let (mut rng, mut right) = (Bytes(8), 0);
    let mut held = [0; RECORD_BYTES];
    held[92..96].copy_from_slice(&1u32.to_le_bytes());
    held[104..].copy_from_slice(&f32::NEG_INFINITY.to_le_bytes());
    let held = Record::from_bytes(&held).expect("it is as long as a record");
    for round in 0..4000 {
        let (before, mut any) = (round % 40, [0; RECORD_BYTES + 8]);
        rng.fill(&mut any);
        let (thresholds, any) = any.split_at_mut(8);
        if round % 4 == 0 {
            any[92..96].copy_from_slice(&held.as_bytes()[92..96]);
        }
        let given: Vec<f32> = floats(thresholds).collect();
        let mut log = Log::new();
        let any = Record::from_bytes(any).expect("it is as long as a record");
        log.try_extend((0..before).map(|_| held).chain([any, held, held])).expect("it fits");
        for profile in [Profile::Whole, Profile::LostRotor] {
            let mut verdict = [0; 4];
            assert_eq!(calls::log_check(log.as_bytes(), profile.word(), given[0], given[1], &mut verdict), 0);
            let typed = log.check(profile, given[0], given[1]).expect("no log is refused");
            assert_eq!(typed, Verdict::from_word(u32::from_le_bytes(verdict)));
            assert!(typed.is_right() || typed == Verdict::WrongAt(before), "{typed}");
            right += u32::from(typed.is_right());
        }
    }
    assert!((200..7000).contains(&right), "{right}");
}

/// A pattern of any items, four deep, and its legs as they are flown, of which the first 33 tell all.
fn any_pattern(rng: &mut Bytes, deep: u32, legs: &[Leg]) -> (Pattern, Vec<Leg>) {
    let (mut pattern, mut flown) = (Pattern::new(), Vec::new());
    for _ in 0..rng.next() % 4 {
        if deep == 0 || rng.next() & 1 == 0 {
            let leg = legs[(rng.next() % legs.len() as u64) as usize];
            pattern.leg(&leg);
            flown.push(leg);
        } else {
            let (inner, own) = any_pattern(rng, deep - 1, legs);
            let count = 1 + (rng.next() % 9) as u8;
            pattern.repeat(count, &inner).expect("it is four deep at most");
            (0..count).for_each(|_| flown.extend(&own));
        }
        flown.truncate(MOST_LEGS + 1);
    }
    (pattern, flown)
}

/// What is built is a pattern, its route that of the legs as they are flown, and the typed calls are the C call.
#[test]
fn patterns_of_any_items() {
    let (mut rng, mut seen) = (Bytes(8), [0u32; 13]);
    let rest = SetUp::falcon_quad().segment;
    // of these three, two meet each other and themselves
    let legs = [rest, Leg { t: 2.0, ..rest }, Leg { pf: [1.0, 0.0, 0.0], ..rest }];
    for round in 0..40_000 {
        let (pattern, flown) = any_pattern(&mut rng, 4, if round % 4 == 0 { &legs } else { &legs[..2] });
        assert_eq!(Pattern::try_from(pattern.as_bytes()), Ok(pattern.clone()));
        let (mut route, mut written) = ([0xa5; 2500], [0xa5; 4]);
        let number = calls::pattern_expand(pattern.as_bytes(), &mut route, &mut written);
        seen[number as usize] += 1;
        match pattern.expand() {
            Ok(own) => {
                let len = own.as_bytes().len();
                assert_eq!((number, u32::from_le_bytes(written) as usize, own.as_bytes()), (0, len, &route[..len]));
                assert!(route[len..].iter().all(|byte| *byte == 0xa5));
                assert_eq!(Route::new(&flown), Ok(own));
            }
            Err(refusal) => {
                assert_eq!((refusal.number(), route, written), (Some(number), [0xa5; 2500], [0xa5; 4]));
                assert_eq!(Route::new(&flown).expect_err("nor is it a route").number(), Some(number));
            }
        }
    }
    assert!([0, 5, 7].iter().all(|number| seen[*number] > 1000), "{seen:?}");
}

/// Bytes of any length and content are a pattern exactly where the C call does not say 12, whatever it says of the route.
#[test]
fn patterns_of_any_bytes() {
    let (mut rng, mut seen) = (Bytes(9), [0u32; 2]);
    for _ in 0..200_000 {
        let bytes: Vec<u8> = (0..rng.next() % 12).map(|_| [0, 1, 1, 2, 4, 8, 0, 9, 10][(rng.next() % 9) as usize]).collect();
        let number = calls::pattern_expand(&bytes, &mut [0; 2500], &mut [0; 4]);
        let made = Pattern::from_bytes(&bytes);
        assert_eq!(made.clone().err(), (number == 12).then_some(Refusal::BrokenPattern));
        assert_eq!(made.is_ok_and(|own| own.into_bytes() == bytes), number != 12);
        seen[usize::from(number == 12)] += 1;
    }
    assert!(seen.iter().all(|count| *count > 1000), "{seen:?}");
}

/// What a repeat does not take leaves the pattern as it was; 65,535 bytes are the most that it holds.
#[test]
fn repeats_at_their_edges() {
    let leg = SetUp::falcon_quad().segment;
    let mut most = Pattern::new();
    for _ in 0..851 {
        most.leg(&leg);
    }
    assert_eq!(most.as_bytes().len(), 65_527);
    most.repeat(1, &Pattern::new()).and_then(|most| most.repeat(1, &Pattern::new())).expect("it is a pattern");
    assert_eq!(most.as_bytes().len(), 65_535);
    let mut pattern = Pattern::new();
    pattern.leg(&leg);
    let before = pattern.clone();
    assert!(Pattern::new().repeat(9, &most).is_ok());
    for count in [0, 10, 0x31, 255] {
        assert_eq!(pattern.repeat(count, &Pattern::new()), Err(Refusal::BrokenPattern));
    }
    most.leg(&leg);
    assert_eq!(pattern.repeat(1, &most), Err(Refusal::BrokenPattern));
    assert!(pattern == before && !pattern.is_empty() && Pattern::default().is_empty());
    let _ = format!("{pattern:?}");
}
