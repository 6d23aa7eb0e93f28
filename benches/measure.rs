//! The inputs and rows of both programs, and how they are measured.

use std::cell::RefCell;
use std::hint::black_box;
use std::time::Instant;

/// A walk over slices: their bytes, and their lengths.
pub type Walk = unsafe extern "C" fn(*const u8, usize, *const u32, usize) -> u64;

/// A walk that changes the bytes.
pub type WalkInPlace = unsafe extern "C" fn(*mut u8, usize, *const u32, usize) -> u64;

/// A walk in place changes only so many bytes at the front of a packet.
const FRONT: usize = 64;

/// The inputs of a walk: slices one behind the other, and their lengths.
#[derive(Clone)]
pub struct Input {
    pub packets: Vec<u8>,
    pub lens: Vec<u32>,
}

impl Input {
    /// Slices of `len` bytes, at most 64, as many as fit 16 KiB, and one at least.
    pub fn even(len: usize) -> Input {
        let count = (16384 / len.max(1)).clamp(1, 64);
        let packets = (0..len * count).map(|i| (i * 167 + i / 256 * 91 + 13) as u8).collect();
        Input {
            packets,
            lens: vec![len as u32; count],
        }
    }

    /// 64 slices of 0 to 125 bytes, odd lengths too, 55 in the mean, each with `before` bytes before it.
    pub fn mixed(before: usize) -> Input {
        let lens: Vec<u32> = (0..64u32).map(|i| (i * 43 + i * i * 5) % 127 + before as u32).collect();
        let size = lens.iter().map(|&n| n as usize).sum::<usize>();
        Input {
            packets: Input::even(size).packets[..size].to_vec(),
            lens,
        }
    }

    /// 64 UDP packets of different lengths, their length fields right.
    pub fn udp() -> Input {
        let (mut packets, mut lens) = (Vec::new(), Vec::new());
        for i in 0..64usize {
            let len = 8 + i * 37 % 97;
            let mut packet: Vec<u8> = (0..len).map(|k| (k * 31 + i * 7 + 1) as u8).collect();
            packet[4..6].copy_from_slice(&(len as u16).to_be_bytes());
            packets.extend(packet);
            lens.push(len as u32);
        }
        Input { packets, lens }
    }
}

pub type Call<'a> = Box<dyn Fn() -> u64 + 'a>;

/// One row: who is timed, and the samples of each in ns a call.
pub struct Row<'a> {
    pub name: String,
    pub bytes: usize,
    pub calls: usize,
    pub who: Vec<(&'static str, Call<'a>, Vec<f64>)>,
    pub rounds: usize,
}

pub fn round(walk: Walk, input: &Input) -> u64 {
    let (p, l) = (black_box(&input.packets[..]), black_box(&input.lens[..]));
    unsafe { walk(p.as_ptr(), p.len(), l.as_ptr(), l.len()) }
}

fn round_in_place(walk: WalkInPlace, packets: &mut [u8], lens: &[u32]) -> u64 {
    let (p, l) = (black_box(packets), black_box(lens));
    unsafe { walk(p.as_mut_ptr(), p.len(), l.as_ptr(), l.len()) }
}

fn put_back(packets: &mut [u8], input: &Input) {
    let mut start = 0;
    for len in &input.lens {
        packets[start..start + FRONT].copy_from_slice(&input.packets[start..start + FRONT]);
        start += *len as usize;
    }
}

/// Checks that all who are timed write the same bytes, that they change each packet exactly if `is_changed`, and that putting the
/// fronts back undoes it.
fn compare_in_place(name: &str, input: &Input, is_changed: bool, who: &[(&'static str, WalkInPlace)]) {
    let changed: Vec<Vec<u8>> = who
        .iter()
        .map(|&(_, walk)| {
            let mut packets = input.packets.clone();
            round_in_place(walk, &mut packets, &input.lens);
            packets
        })
        .collect();
    for (mut packets, (w, _)) in changed.iter().cloned().zip(who) {
        assert!(packets == changed[0], "{name}: {w} writes other bytes than {}", who[0].0);
        let mut start = 0;
        for len in &input.lens {
            let place = start..start + *len as usize;
            assert_eq!(packets[place.clone()] != input.packets[place], is_changed, "{name}: {w}");
            start += *len as usize;
        }
        put_back(&mut packets, input);
        assert!(packets == input.packets, "{name}: {w} changes more than the front");
    }
}

impl<'a> Row<'a> {
    pub fn walks(name: &str, bytes: usize, input: &'a Input, who: &[(&'static str, Walk)]) -> Row<'a> {
        let who = who
            .iter()
            .map(|&(w, f)| (w, Box::new(move || round(black_box(f), input)) as Call, Vec::new()))
            .collect();
        Row {
            name: name.to_string(),
            bytes,
            calls: input.lens.len(),
            who,
            rounds: 1,
        }
    }

    /// Before each walk the fronts of all packets are put back, alike for all who are timed.
    pub fn in_place(name: &str, input: &'a Input, is_changed: bool, who: &[(&'static str, WalkInPlace)]) -> Row<'a> {
        compare_in_place(name, input, is_changed, who);
        let who = who
            .iter()
            .map(|&(w, f)| {
                let packets = RefCell::new(input.packets.clone());
                let call = move || {
                    let mut packets = packets.borrow_mut();
                    put_back(&mut packets, input);
                    round_in_place(black_box(f), &mut packets, &input.lens)
                };
                (w, Box::new(call) as Call, Vec::new())
            })
            .collect();
        Row {
            name: name.to_string(),
            bytes: 0,
            calls: input.lens.len(),
            who,
            rounds: 1,
        }
    }

    /// All answer the same.
    pub fn compare(&self) {
        let wanted = (self.who[0].1)();
        for (who, call, _) in &self.who {
            assert_eq!(
                call(),
                wanted,
                "{}: {who} answers otherwise than {}",
                self.name,
                self.who[0].0
            );
        }
    }

    pub fn sample(&self, k: usize) -> f64 {
        let start = Instant::now();
        for _ in 0..self.rounds {
            black_box((self.who[k].1)());
        }
        start.elapsed().as_nanos() as f64 / (self.rounds * self.calls) as f64
    }

    /// A sample takes about 60 microseconds of the first one's work, and one round at least.
    pub fn calibrate(&mut self) {
        loop {
            let ns = self.sample(0) * (self.rounds * self.calls) as f64;
            if ns > 60_000.0 || self.rounds > 1 << 20 {
                break;
            }
            self.rounds = (self.rounds * 2).max((self.rounds as f64 * 50_000.0 / ns.max(1.0)) as usize);
        }
    }

    pub fn of(&self, who: &str) -> Option<(f64, f64)> {
        let (_, _, per) = self.who.iter().find(|(w, _, _)| *w == who)?;
        let mut per = per.clone();
        per.sort_by(|a, b| a.total_cmp(b));
        Some((per[0], per[per.len() / 2]))
    }
}

pub fn measure(rows: &mut [Row]) {
    let given = |name: &str, usual: usize| std::env::var(name).ok().and_then(|s| s.parse().ok()).unwrap_or(usual);
    let (passes, samples, pause) = (given("BENCH_PASSES", 9), given("BENCH_SAMPLES", 25), given("BENCH_PAUSE", 0));
    for row in rows.iter_mut() {
        row.compare();
        row.calibrate();
    }
    for pass in 0..passes {
        std::thread::sleep(std::time::Duration::from_millis(pause as u64));
        for row in rows.iter_mut() {
            for turn in 0..samples {
                // in turn, and not always in one order
                for i in 0..row.who.len() {
                    let k = (i + turn + pass) % row.who.len();
                    let ns = row.sample(k);
                    row.who[k].2.push(ns);
                }
            }
        }
    }
}

/// Adds the samples that runs of the program with its code at other places left in a file, and leaves all there.
pub fn add_kept(rows: &mut [Row], path: &str) {
    let kept = std::fs::read_to_string(path).unwrap_or_default();
    let all = rows.iter_mut().flat_map(|row| &mut row.who).map(|(_, _, samples)| samples);
    let mut text = String::new();
    for (place, samples) in all.enumerate() {
        let line = kept.lines().nth(place).unwrap_or_default();
        samples.extend(line.split_whitespace().map(|sample| sample.parse::<f64>().unwrap()));
        text += &samples.iter().map(f64::to_string).collect::<Vec<_>>().join(" ");
        text += "\n";
    }
    std::fs::write(path, text).unwrap();
}
