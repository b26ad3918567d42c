//! Drivers: questions for both sides, compared one by one.

use crate::{
    child,
    twist::{near, EDGES},
    write_sample, Progress, Table, ENOUGH,
};
use driver::{
    hex,
    questions::{answer, question, Chips, Done},
    random::Random,
};
use std::{collections::BTreeMap, io, path::Path, sync::mpsc::sync_channel, thread};

/// Questions in a batch.
const BATCH: usize = 50_000;

/// A question and the original's answer.
struct Asked {
    line: String,
    answer: String,
}

pub fn run(seed: u64, questions: u64, command: &[String]) -> io::Result<bool> {
    let (to, batches) = sync_channel::<Vec<Asked>>(1);
    let maker = thread::spawn(move || {
        let mut batch = Vec::new();
        all(seed, questions, &mut |_, asked| {
            batch.push(asked);
            batch.len() < BATCH || to.send(std::mem::take(&mut batch)).is_ok()
        });
        to.send(batch).ok();
    });

    let mut table = Table::default();
    let mut progress = Progress::new("questions");
    let mut differences = 0;
    'run: for batch in &batches {
        let input: String = batch.iter().flat_map(|a| [&a.line, "\n"]).collect();
        let (answers, ended_well) = child::answers(command, input.as_bytes())?;
        let mut rest = &answers[..];
        for asked in &batch {
            let other = child::next_line(&mut rest);
            if other.strip_suffix(b"\n") != Some(asked.answer.as_bytes()) {
                differences += 1;
                eprintln!("\nseed {seed}: {}", asked.line.escape_default());
                eprintln!("  original {}\\n", asked.answer);
                eprintln!("  other    {}", child::shown(other));
                if differences >= ENOUGH {
                    break 'run;
                }
                continue;
            }
            count(&mut table, asked);
            progress.one_more();
        }
        if !rest.is_empty() || !ended_well {
            differences += 1;
            eprintln!(
                "\nafter its answers: {}",
                child::shown(&rest[..rest.len().min(200)])
            );
        }
    }
    progress.end();
    drop(batches);
    let broken = |_| io::Error::other("the original's side broke off");
    maker.join().map_err(broken)?;
    table.print();
    println!("differences: {differences}");
    Ok(differences == 0)
}

/// A question whose answers were equal.
fn count(table: &mut Table, asked: &Asked) {
    let mut columns = asked.answer.split(',');
    let result = columns.next().unwrap();
    let [numbers, rows] = [(); 2].map(|()| columns.next().unwrap_or("").len() as u64);
    let words: Vec<&str> = asked.line.split(' ').collect();
    let name = match (result, &words[..]) {
        ("bad", _) => "not understood".into(),
        (_, ["map" | "invert", ..]) => words[0].into(),
        _ => words[..2].join(" "),
    };
    table.add("all that was compared", "questions", 1);
    table.add("all that was compared", "numbers", numbers / 8);
    table.add("all that was compared", "rows", rows / 32);
    table.add("by question and result", &format!("{name}: {result}"), 1);
}

/// The kind of question of which none is left out of a sample.
const EDGE: &str = "edges";

/// A sample of some 3,000 questions: all edges first, and then of every kind as
/// many as there are, but no more than some, each of them with the same chance.
pub fn keep(seed: u64, folder: &Path) -> io::Result<bool> {
    const OF_A_KIND: usize = 160;
    let mut random = Random::new(seed, u64::MAX);
    let mut kinds: BTreeMap<&str, (usize, Vec<(usize, Asked)>)> = BTreeMap::new();
    all(seed, 20_000, &mut |kind, asked| {
        let (seen, kept) = kinds.entry(kind).or_default();
        *seen += 1;
        if kept.len() < OF_A_KIND || kind == EDGE {
            kept.push((*seen, asked));
        } else if random.below(*seen) < OF_A_KIND {
            kept[random.below(OF_A_KIND)] = (*seen, asked);
        }
        true
    });
    let (mut input, mut answers, mut lines) = (String::new(), String::new(), 0);
    let edges = kinds.remove(EDGE).into_iter();
    for (_, mut kept) in edges.chain(kinds.into_values()) {
        kept.sort_by_key(|(place, _)| *place);
        for (_, asked) in kept {
            input += &(asked.line + "\n");
            answers += &(asked.answer + "\n");
            lines += 1;
        }
    }
    println!("{lines} questions");
    write_sample(folder, input.as_bytes(), answers.as_bytes())?;
    Ok(true)
}

/// All questions of a seed, each with the name of its kind, until the sink says
/// that it has enough.
fn all(seed: u64, questions: u64, sink: &mut dyn FnMut(&'static str, Asked) -> bool) {
    let mut asker = Asker {
        chips: Chips::open(),
        random: Random::new(seed, 0),
        open: true,
        sink,
    };
    asker.zeros();
    asker.bits();
    asker.words();
    asker.failures();
    asker.converters();
    asker.transforms();
    asker.not_understood();
    for _ in 0..questions {
        if !asker.open {
            return;
        }
        asker.any();
    }
}

struct Asker<'a> {
    chips: Chips,
    random: Random,
    open: bool,
    sink: &'a mut dyn FnMut(&'static str, Asked) -> bool,
}

/// Replies with data in one place: all before it are acknowledged and empty.
fn reply(place: usize, data: &[u8]) -> String {
    let mut bytes = vec![0; 9 * place + 1];
    bytes.extend(data);
    hex::write(&bytes)
}

impl Asker<'_> {
    fn ask(&mut self, kind: &'static str, line: String) {
        if self.open {
            let answer = answer(&mut self.chips, &line);
            self.open = (self.sink)(kind, Asked { line, answer });
        }
    }

    /// Zeros and ones of either sign, and what cancels: the sign of a zero that
    /// comes out.
    fn zeros(&mut self) {
        let signed = |x: f32| [x.to_bits(), (-x).to_bits()];
        for slope in signed(1.0) {
            for offset in [signed(0.0), signed(1.0)].concat() {
                for x in [signed(0.0), signed(1.0)].concat() {
                    let words = format!("{slope:08X} {offset:08X} {x:08X}");
                    self.ask(EDGE, format!("map {words}"));
                    self.ask(EDGE, format!("invert {words}"));
                }
            }
        }
    }

    /// Each bit of a word alone, and none and all; each bit of an alarm that stands
    /// and is enabled, and bits that are not both.
    fn bits(&mut self) {
        let words = (0..16).map(|bit| 1 << bit).chain([0, 0xFFFF]);
        for data in words.map(u16::to_be_bytes) {
            let line = format!("mcp3221 voltage {}", reply(0, &data));
            self.ask(EDGE, line);
            self.ask(EDGE, format!("ads7924 voltage 3 {}", reply(1, &data)));
        }
        let alarms = [0x11, 0x22, 0x44, 0x88, 0x0F, 0xF0, 0x5A, 0xA5, 0x00, 0xFF];
        for byte in alarms {
            self.ask(EDGE, format!("ads7924 alarm {}", reply(0, &[byte])));
        }
        for channel in 0..4 {
            for byte in [0x00, 0xFF] {
                let head = format!("ads7924 thresholds {channel} 3F000000 40000000");
                self.ask(EDGE, format!("{head} {}", reply(1, &[byte])));
            }
        }
    }

    /// The first and the last code of a converter, and where it refuses: the last
    /// pattern on this side and the first on the other.
    fn ends(&mut self, edges: &[u32], asks: &dyn Fn(u32) -> Vec<String>) {
        let ends = [edges[0], edges[edges.len() - 2], edges[edges.len() - 1]];
        for bits in ends.into_iter().flat_map(|edge| [edge - 1, edge]) {
            asks(bits).into_iter().for_each(|line| self.ask(EDGE, line));
        }
        // Zeros, what is below, and no number.
        for bits in [0, 0x8000_0000, 1, 0x8000_0001, 0x7FC0_0000, 0xFF80_0000] {
            asks(bits).into_iter().for_each(|line| self.ask(EDGE, line));
        }
    }

    /// Every word that a converter can give, and every byte of the alarm.
    fn words(&mut self) {
        for word in 0..=u16::MAX {
            let data = word.to_be_bytes();
            self.ask(
                "mcp3221 words",
                format!("mcp3221 voltage {}", reply(0, &data)),
            );
            for channel in 0..4 {
                let line = format!("ads7924 voltage {channel} {}", reply(1, &data));
                self.ask("ads7924 words", line);
            }
            // Odd factors: every word comes to every place.
            let words = [1, 3, 0x5555, 0x9E37].map(|odd| word.wrapping_mul(odd));
            let data = words.map(u16::to_be_bytes).concat();
            self.ask(
                "ads7924 four words",
                format!("ads7924 voltages {}", reply(1, &data)),
            );
        }
        for byte in 0..=u8::MAX {
            self.ask(
                "ads7924 alarm",
                format!("ads7924 alarm {}", reply(0, &[byte])),
            );
            for channel in 0..4 {
                let head = format!("ads7924 thresholds {channel} 3F000000 40000000");
                let line = format!("{head} {}", reply(1, &[byte]));
                self.ask("ads7924 bits of the channels", line);
            }
        }
    }

    /// Every question with a failure at every place, also past its last transfer,
    /// and with any data; values that are refused before there is a transfer, too.
    fn failures(&mut self) {
        let heads = "mcp3221 voltage;dac7571 set 3F800000;dac7571 set 40533333;dac7571 set 7FC00000;\
            ad5627 open;ad5627 set A 3F800000;ad5627 set B 401FFFFF;ad5627 set AB 00000000;\
            ad5627 set A 40200000;ads7924 open;ads7924 voltage 0;ads7924 voltage 1;ads7924 voltage 2;\
            ads7924 voltage 3;ads7924 voltages;ads7924 alarm;ads7924 thresholds 0 3F000000 40000000;\
            ads7924 thresholds 1 00000000 00000000;ads7924 thresholds 2 3F800000 3F800000;\
            ads7924 thresholds 3 7FC00000 7FC00000;ads7924 thresholds 0 40000000 3F800000";
        for head in heads.split(';') {
            self.ask("failures", head.to_string());
            for place in 0..15 {
                for status in [1, 2, 0x7F, 0x80, 0xFF] {
                    let mut replies = [0; 135];
                    for (i, byte) in replies.iter_mut().enumerate() {
                        *byte = if i % 9 == 0 { 0 } else { self.random.byte() };
                    }
                    replies[9 * place] = status;
                    // A second one further on changes nothing.
                    if status == 2 && place < 14 {
                        replies[9 * place + 9] = 1;
                    }
                    let end = if status == 1 { 9 * place + 1 } else { 135 };
                    let line = format!("{head} {}", hex::write(&replies[..end]));
                    self.ask("failures", line);
                }
            }
        }
    }

    /// The patterns from 0 to infinity at which a converter's code goes up, the
    /// last one being where it refuses. On that range the code never goes down:
    /// a division by a positive number, a product with one and the cut all keep
    /// the order. So each place is found by halving, and not among 2^31 patterns.
    /// `rank` is the code, or one more than the last if the value is refused.
    fn edges(&mut self, line: &str, last: u32, rank: fn(&[u8; 16]) -> u32) -> Vec<u32> {
        let words: Vec<&str> = line.split(' ').collect();
        let question = question(&words).expect("a question");
        let mut done = Done::default();
        let mut edge = 0;
        let mut rank_of = |bits| {
            self.chips.ask(&question, f32::from_bits(bits), &mut done);
            done.rows.first().map_or(last + 1, rank)
        };
        let mut edges = Vec::new();
        for code in 1..=last + 1 {
            let (mut below, mut at) = (edge, f32::INFINITY.to_bits());
            while at - below > 1 {
                let middle = below + (at - below) / 2;
                match rank_of(middle) < code {
                    true => below = middle,
                    false => at = middle,
                }
            }
            edge = below;
            edges.push(at);
        }
        edges
    }

    /// A voltage, as each driver is asked for it.
    fn volts(&mut self, kind: &'static str, bits: u32) {
        for output in ["A", "B", "AB"] {
            self.ask(kind, format!("ad5627 set {output} {bits:08X}"));
        }
        self.ask(kind, format!("dac7571 set {bits:08X}"));
        self.ask(kind, format!("ads7924 thresholds 0 00000000 {bits:08X}"));
        self.ask(kind, format!("ads7924 thresholds 1 {bits:08X} 40000000"));
        self.ask(kind, format!("ads7924 thresholds 2 {bits:08X} {bits:08X}"));
    }

    /// Voltages around the edges of every code, around the limits, and those that
    /// are out of the ordinary.
    fn converters(&mut self) {
        let code = |row: &[u8; 16]| u16::from_be_bytes([row[6], row[7]]) as u32 >> 4;
        let edges = self.edges("ad5627 set B x", 4095, code);
        self.ends(&edges, &|x| vec![format!("ad5627 set B {x:08X}")]);
        for edge in edges {
            for bits in edge - 2..=edge + 1 {
                for output in ["A", "B", "AB"] {
                    self.ask("ad5627 codes", format!("ad5627 set {output} {bits:08X}"));
                }
            }
        }
        let code = |row: &[u8; 16]| u16::from_be_bytes([row[5], row[6]]) as u32;
        let edges = self.edges("dac7571 set x", 4095, code);
        self.ends(&edges, &|x| vec![format!("dac7571 set {x:08X}")]);
        for edge in edges {
            for bits in edge - 2..=edge + 1 {
                self.ask("dac7571 codes", format!("dac7571 set {bits:08X}"));
            }
        }
        // What is sent is the code without its last four bits.
        let edges = self.edges("ads7924 thresholds 1 00000000 x", 255, |row| row[6] as u32);
        let highest = edges[255] - 1;
        self.ends(&edges, &|x| {
            let pairs = [(0, x), (x, highest), (x, x)];
            let line = |(low, high)| format!("ads7924 thresholds 1 {low:08X} {high:08X}");
            pairs.map(line).into()
        });
        for edge in edges {
            for channel in 0..4 {
                for bits in edge - 2..=edge + 1 {
                    for (low, high) in [(0, bits), (bits, highest), (bits, bits), (bits, bits - 1)]
                    {
                        let head = format!("ads7924 thresholds {channel}");
                        self.ask("ads7924 codes", format!("{head} {low:08X} {high:08X}"));
                    }
                }
            }
        }

        let mut bits: Vec<u32> = EDGES.to_vec();
        bits.extend([
            0x7F80_0001,
            0x7FBF_FFFF,
            0x7FFF_FFFF,
            0xFFC0_0000,
            0xFFFF_FFFF,
        ]);
        // Limits, and where a cut to sixteen bits stops.
        let to_the_end = [2.5, 3.3, 3.434].map(|v| 65_536.0 / 4096.0 * v);
        for limit in [0.0, 0.1, 1.0, 2.5, 3.2, 3.3, 3.434, 10.0]
            .into_iter()
            .chain(to_the_end)
        {
            for by in -3..=3 {
                bits.extend([near(limit, by), near(-limit, by)]);
            }
        }
        for x in bits.clone() {
            self.volts("limits", x);
        }
        for low in &bits {
            for high in &bits {
                let line = format!("ads7924 thresholds 3 {low:08X} {high:08X}");
                self.ask("ads7924 limits", line);
            }
        }
    }

    /// Every triple of values that are out of the ordinary or in use.
    fn transforms(&mut self) {
        let mut bits: Vec<u32> = EDGES.to_vec();
        let used = [0.1, 30.0, 20.0, -10.0, 2.5, 1e-20, 3e19, 1e38, 16_777_216.0];
        bits.extend(used.map(f32::to_bits));
        for slope in &bits {
            for offset in &bits {
                for x in &bits {
                    let words = format!("{slope:08X} {offset:08X} {x:08X}");
                    self.ask("map", format!("map {words}"));
                    self.ask("invert", format!("invert {words}"));
                }
            }
        }
    }

    fn not_understood(&mut self) {
        let long = format!("mcp3221 voltage {}", "00".repeat(136));
        let lines = "neither;;map;map 3F800000 3F800000;map 3F800000 3F800000 3F80000;\
            invert 3F800000 3F800000 3F8000000;map 3f800000 3F800000 3F800000;mcp3221;mcp3221 set;\
            mcp3221 voltage 0;mcp3221 voltage 0G;mcp3221 voltage 00 00;dac7571 set;dac7571 get 3F800000;\
            ad5627 set C 3F800000;ad5627 set 3F800000;ad5627 set A;ads7924 voltage;ads7924 voltage 4;\
            ads7924 thresholds 0 3F800000;ads7924 thresholds 5 3F800000 3F800000;ads7924 alarm 0;Map 0 0 0";
        for line in lines.split(';').chain([&long[..]]) {
            self.ask("not understood", line.to_string());
        }
    }

    /// One question at random.
    fn any(&mut self) {
        let r = &mut self.random;
        let (kind, mut line) = match r.below(6) {
            0 => {
                let output = r.pick(&["A", "B", "AB"]);
                let volts = any_volts(r, 2.5);
                ("any ad5627", format!("ad5627 set {output} {volts:08X}"))
            }
            1 => (
                "any dac7571",
                format!("dac7571 set {:08X}", any_volts(r, 3.3)),
            ),
            2 => {
                let (channel, low) = (r.below(4), any_volts(r, 3.434));
                // The second at random would mostly be refused for being lower.
                let high = match r.below(3) {
                    0 => any_volts(r, 3.434),
                    1 => near(f32::from_bits(low), r.below(5) as i64 - 1),
                    _ => r.between(f32::from_bits(low), 3.5).to_bits(),
                };
                let words = format!("{channel} {low:08X} {high:08X}");
                ("any ads7924", format!("ads7924 thresholds {words}"))
            }
            3 | 4 => ("any map", format!("map {}", any_triple(r))),
            _ => ("any invert", format!("invert {}", any_triple(r))),
        };
        if kind != "any map" && kind != "any invert" && r.once_in(40) {
            let place = r.below(4);
            line += &format!(
                " {}",
                hex::write(&[vec![0; 9 * place], vec![r.byte()]].concat())
            );
        }
        self.ask(kind, line);
    }
}

/// Any pattern; a voltage from below 0 to above the limit; one near a code's edge.
fn any_volts(r: &mut Random, limit: f32) -> u32 {
    match r.below(4) {
        0 | 1 => r.bits(),
        2 => r.between(-0.02 * limit, 1.1 * limit).to_bits(),
        _ => {
            let code = r.below(4098) as f32;
            near(code / 4096.0 * limit, r.below(9) as i64 - 4)
        }
    }
}

/// Slope, offset and value: any patterns; sizes close enough for every bit to
/// count in the rounding; values in use; or a sum and a difference that all but
/// cancel.
fn any_triple(r: &mut Random) -> String {
    let close = |r: &mut Random| r.bits() & 0x807F_FFFF | (115 + r.below(24) as u32) << 23;
    let [slope, offset, x] = match r.below(4) {
        0 => [(); 3].map(|()| r.bits()),
        1 => [(); 3].map(|()| close(r)),
        2 => [(); 3].map(|()| r.between(-60.0, 60.0).to_bits()),
        _ => {
            let [slope, x] = [(); 2].map(|()| close(r));
            let product = f32::from_bits(slope) * f32::from_bits(x);
            let by = r.below(9) as i64 - 4;
            match r.once_in(2) {
                true => [slope, near(-product, by), x],
                false => [slope, near(f32::from_bits(x), by), x],
            }
        }
    };
    format!("{slope:08X} {offset:08X} {x:08X}")
}
