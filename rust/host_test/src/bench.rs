//! How many packets a second get through, and the processor time that each takes: the box beside the same host that only forwards.

use crate::check::{Outcome, While, SOON};
use crate::ends::{Directory, End, Lab, Options, PLAIN};
use crate::ensure;
use crate::packets::{CLINIC4, VAN4};
use crate::plan::{drivers, Template, PORTS};
use crate::sys;
use crate::tests::applied;
use std::fs;
use std::net::UdpSocket;
use std::path::Path;
use std::sync::atomic::{AtomicBool, Ordering};
use std::thread;
use std::time::{Duration, Instant};

/// Bytes of a whole packet.
const SIZES: [usize; 2] = [64, 1400];

const SECONDS: u64 = 5;
const ROUNDS: usize = 5;
/// Packets a second, where the sender does not go as fast as it can.
const RATE: u64 = 50_000;

/// One run: packets a second that arrived, and nanoseconds of processor a packet at each end.
#[derive(Clone, Copy)]
struct Sample {
    arrived: f64,
    van: f64,
    clinic: f64,
    /// The part of the van's packets that went by a template.
    short: f64,
}

struct Load<'a> {
    size: usize,
    plan: &'a [Template],
    rate: Option<u64>,
    time: Duration,
}

pub fn bench(program: &Path, forward: &Path, numbers: &[&str]) -> Outcome {
    let given = |index: usize, otherwise: u64| match numbers.get(index) {
        Some(text) => text.parse().during(text),
        None => Ok(otherwise),
    };
    let (time, rounds) = (Duration::from_secs(given(0, SECONDS)?), given(1, ROUNDS as u64)? as usize);
    let rate = given(2, RATE)?;
    ensure!(rounds > 0 && rate > 0 && !time.is_zero(), "seconds, rounds and rate are above 0");
    let directory = Directory::new()?;
    let plan = drivers();
    println!("{rounds} rounds of {} s, the two programs in turn; median (least to most)", time.as_secs());
    for rate in [None, Some(rate)] {
        for size in SIZES {
            for plan in [&[][..], &plan] {
                let load = Load { size, plan, rate, time };
                let mut samples = [Vec::new(), Vec::new()];
                for round in 0..rounds {
                    for (index, program) in [program, forward].into_iter().enumerate() {
                        let mark = format!("{}-bench{round}{index}", std::process::id());
                        samples[index].push(measure(program, &directory, &mark, &load)?);
                    }
                }
                let expected = if plan.is_empty() { 0.0 } else { 1.0 };
                ensure!(samples[0].iter().all(|sample| sample.short == expected), "the packets went in the other form");
                report(&load, &samples);
            }
        }
    }
    Ok(())
}

fn measure(program: &Path, directory: &Directory, mark: &str, load: &Load) -> Result<Sample, String> {
    ensure!(!sys::stopped(), "stopped");
    let lab = Lab::new(program, directory, mark)?;
    let (van, clinic) = applied(&lab, &Options { plan: load.plan, ..PLAIN })?;
    let sink = lab.clinic.within(|| UdpSocket::bind((CLINIC4, PORTS.1))).during("binding")?;
    let source = lab.van.within(|| UdpSocket::bind((VAN4, PORTS.0))).during("binding")?;
    sys::receive_buffer(&sink, 1 << 22).during("socket")?;
    sink.set_read_timeout(Some(Duration::from_millis(100))).during("socket")?;
    source.connect((CLINIC4, PORTS.1)).during("connecting")?;
    let payload = vec![0x5A; load.size - 28];
    // The first packet passes before anything is timed.
    let first = Instant::now();
    while sink.recv(&mut [0; 2048]).is_err() {
        ensure!(first.elapsed() < SOON, "no packet passes");
        source.send(&payload).during("sending")?;
    }
    let before = [Reading::of(&van, "sent")?, Reading::of(&clinic, "received")?];
    let ended = AtomicBool::new(false);
    let (arrived, taken) = thread::scope(|scope| {
        let counting = scope.spawn(|| {
            let (mut count, mut bytes) = (0_u64, [0; 2048]);
            while !ended.load(Ordering::Relaxed) {
                count += u64::from(sink.recv(&mut bytes).is_ok());
            }
            count
        });
        let begun = Instant::now();
        flood(&source, &payload, load);
        let taken = begun.elapsed();
        ended.store(true, Ordering::Relaxed);
        (counting.join().unwrap_or(0), taken)
    });
    let after = [Reading::of(&van, "sent")?, Reading::of(&clinic, "received")?];
    let [van, clinic] = [0, 1].map(|end| after[end].since(&before[end]));
    ensure!(van.packets > 0 && clinic.packets > 0, "no packets passed");
    let short = van.short as f64 / van.packets as f64;
    Ok(Sample { arrived: arrived as f64 / taken.as_secs_f64(), van: van.a_packet(), clinic: clinic.a_packet(), short })
}

/// Sends as fast as it goes, or at a rate in bursts of a millisecond.
fn flood(source: &UdpSocket, payload: &[u8], load: &Load) {
    let begun = Instant::now();
    let mut sent = 0;
    while begun.elapsed() < load.time && !sys::stopped() {
        let due = load.rate.map_or(sent + 64, |rate| rate * begun.elapsed().as_micros() as u64 / 1_000_000);
        while sent < due {
            // A full queue is no fault: what does not arrive is not counted.
            let _ = source.send(payload);
            sent += 1;
        }
        if load.rate.is_some() {
            thread::sleep(Duration::from_millis(1));
        }
    }
}

/// Processor time and packets of an end up to now.
struct Reading {
    nanoseconds: u64,
    packets: u64,
    short: u64,
}

impl Reading {
    fn of(end: &End, way: &str) -> Result<Reading, String> {
        let mut nanoseconds = 0;
        for task in fs::read_dir(format!("/proc/{}/task", end.id())).during("processor time")? {
            let path = task.during("processor time")?.path().join("schedstat");
            let text = fs::read_to_string(path).during("processor time")?;
            let time = text.split_whitespace().next().unwrap_or("");
            nanoseconds += time.parse::<u64>().during("processor time")?;
        }
        let counters = end.counters()?;
        let [packets, short] = ["packets", "short"].map(|name| counters.get(&format!("{way} {name}")));
        Ok(Reading { nanoseconds, packets, short })
    }

    fn since(&self, before: &Reading) -> Reading {
        Reading {
            nanoseconds: self.nanoseconds - before.nanoseconds,
            packets: self.packets - before.packets,
            short: self.short - before.short,
        }
    }

    fn a_packet(&self) -> f64 {
        self.nanoseconds as f64 / self.packets as f64
    }
}

fn median(mut numbers: Vec<f64>) -> [f64; 3] {
    numbers.sort_by(f64::total_cmp);
    [numbers[numbers.len() / 2], numbers[0], numbers[numbers.len() - 1]]
}

fn report(load: &Load, samples: &[Vec<Sample>; 2]) {
    let form = if load.plan.is_empty() { "in full" } else { "by a template" };
    let pace = load.rate.map_or("as fast as it goes".to_string(), |rate| format!("{rate} packets a second"));
    println!("\n{} bytes, {form}, {pace}", load.size);
    println!("{:32} {:>27} {:>27} {:>9}", "", "box", "forward only", "ratio");
    type Value = fn(&Sample) -> f64;
    let rows: [(&str, Value); 3] = [
        ("packets a second", |sample| sample.arrived),
        ("ns a packet, the van's process", |sample| sample.van),
        ("ns a packet, the clinic's process", |sample| sample.clinic),
    ];
    for (name, value) in rows {
        let [ours, theirs] = [0, 1].map(|index| median(samples[index].iter().map(value).collect()));
        let cell = |[middle, least, most]: [f64; 3]| format!("{middle:.0} ({least:.0} to {most:.0})");
        println!("{name:32} {:>27} {:>27} {:>9.2}", cell(ours), cell(theirs), ours[0] / theirs[0]);
    }
}
