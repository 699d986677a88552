//! Sets up an image, ticks it along a slow pass, keeps a log of it and prints who flies; then the log read back and checked, the segment
//! exchanged in flight, three calls that are refused, and a tick with a rotor lost.
//!
//!   make core && cargo run --offline --manifest-path examples/rust/Cargo.toml

use fosavalo::{calls, GyroFilter, Image, Log, LogView, Profile, Refusal, Segment, SetUp, TickInput};

/// Roll rates that take the margin above exit, into the band, below enter, into the band again and out at the top; each for as many ticks as the filter takes to follow.
const RATES: [f32; 8] = [1.8, 1.0, 1.75, 1.8, 1.9, 1.8, 1.75, 1.0];
const EACH: usize = 8;

fn main() -> Result<(), Refusal> {
    // three metres to the north in eight seconds, the gyro filtered at 200 Hz of 1000 ticks a second
    let set_up = SetUp {
        segment: Segment { pf: [3.0, 0.0, 0.0], t: 8.0, ..SetUp::falcon_quad().segment },
        filter: GyroFilter { fc: 200.0, fs: 1000.0 },
        ..SetUp::falcon_quad()
    };
    // refused where this thread's floating-point environment is not the one that the core computes in
    let mut image = Image::set_up(&set_up)?;
    println!("{image:?}");
    let mut log = Log::new();
    // a hand's breadth east of the start, by its own estimate
    let aircraft = [0.0f32, 0.1, 0.0];

    for (tick, rate) in (1..).zip(RATES.iter().flat_map(|rate| [rate; EACH])) {
        // how far it is from where the segment has it now
        let wanted = set_up.segment.sample(image.time())?.position;
        let tracking_error = wanted.iter().zip(aircraft).map(|(wanted, is)| (wanted - is).powi(2)).sum::<f32>().sqrt();
        let input =
            TickInput { gyro: [*rate, 0.0, 0.0].into(), tracking_error, planner: [0.5, -0.25, 0.125].into(), ..TickInput::default() };
        let answer = image.tick(&input)?;
        log.append(&input, &answer)?;
        if tick % EACH != 0 {
            continue;
        }
        let (margin, pilot, command, torque) = (answer.margin, answer.pilot, answer.command.0, answer.torque.0);
        println!("tick {tick}: margin {margin:7.4}, {pilot:8} flies {command:?}, torque {torque:?}");
    }

    // the log's bytes are what would go to a file and come back from it
    let file = log.into_bytes();
    let flown = LogView::try_from(&file[..])?;
    let margins: Vec<f32> = flown.iter().skip(EACH - 1).step_by(EACH).map(|record| record.answer().margin).collect();
    println!("the log, {} records, has at each eighth the margins {margins:?}", flown.len());
    println!("checked as one of another box's: {}", flown.check(Profile::Whole, set_up.enter, set_up.exit)?);

    // back home in flight: the time starts again, who flies goes on, and the peaks of the jerk are read off the image
    image.exchange(&Segment { p0: [3.0, 0.0, 0.0], pf: [0.0; 3], ..set_up.segment })?;
    println!("the segment exchanged: time {}, {} flies on, peaks {:?}", image.time(), image.pilot(), image.peak_abs_jerk());

    // an image whose latch is neither 0 nor 1; then an answer that is too short, by the calls on bytes
    let mut bytes = *image.as_bytes();
    bytes[4 * 15] = 2;
    let broken = Image::from_bytes(&bytes)?.tick(&TickInput::default());
    println!("broken image: {}", broken.map_or_else(|refusal| refusal.to_string(), |_| "taken".to_string()));
    let mut bytes = image.clone().into_bytes();
    let number = calls::tick(&mut bytes, &TickInput::default().to_bytes(), &mut [0; 39]);
    println!("answer of 39 bytes: {}, image {}", number, if &bytes == image.as_bytes() { "unchanged" } else { "CHANGED" });

    // 0 Hz does not turn the filter off
    let off = Image::set_up(&SetUp { filter: GyroFilter { fc: 0.0, fs: 1000.0 }, ..set_up });
    println!("no filter: {}", off.map_or_else(|refusal| refusal.to_string(), |_| "taken".to_string()));

    // with a rotor lost, spinning and with no heading: the planner flies, and nothing is asked about the third axis
    let mut image = Image::set_up(&SetUp { profile: Profile::LostRotor, ..set_up })?;
    let spinning = TickInput { gyro: [0.0, 0.0, 20.0].into(), yaw: f32::NAN, planner: [0.5, -0.25, 2.0].into(), ..TickInput::default() };
    let answer = image.tick(&spinning)?;
    println!("a rotor lost: {} flies {:?}, torque {:?}", answer.pilot, answer.command.0, answer.torque.0);
    Ok(())
}
