//! Channels: traces for both sides, compared line by line.

use crate::{
    child, probes,
    twist::CALLS,
    walk::{Line, Plan, Trace, HEADER, STATES},
    write_sample, Progress, Table, ENOUGH,
};
use std::{collections::BTreeSet, fs, io, path::Path, sync::mpsc::sync_channel, thread};

/// Calls in a batch.
const BATCH: u64 = 20_000;

pub fn run(seed: u64, calls: u64, command: &[String]) -> io::Result<bool> {
    // The original makes the next batch while the other program has this one.
    let (to, batches) = sync_channel::<Vec<Trace>>(1);
    let maker = thread::spawn(move || {
        let plan = Plan::new(seed, false);
        let mut traces = probes::all()
            .into_iter()
            .chain((0..).map(|n| plan.trace(n)));
        let mut made = 0;
        while made < calls {
            let (mut batch, end) = (Vec::new(), calls.min(made + BATCH));
            while made < end {
                let trace = traces.next().expect("there is no last one");
                made += trace.lines.iter().filter(|l| l.call.is_some()).count() as u64;
                batch.push(trace);
            }
            if to.send(batch).is_err() {
                return;
            }
        }
    });

    let mut table = Table::default();
    let mut pairs = BTreeSet::new();
    let mut progress = Progress::new("calls");
    let mut differences = 0;
    'run: for batch in &batches {
        let input: Vec<u8> = batch.iter().flat_map(Trace::input).collect();
        let (answers, ended_well) = child::answers(command, &input)?;
        let mut rest = &answers[..];
        for trace in &batch {
            let mut same = true;
            for (i, line) in trace.lines.iter().enumerate() {
                let answer = child::next_line(&mut rest);
                if same && answer != line.answer {
                    // Later lines of the trace follow from this one.
                    same = false;
                    let name = format!("difference-{seed}-{}.csv", trace.name.replace(' ', "-"));
                    fs::write(&name, trace.input())?;
                    eprintln!(
                        "\nseed {seed}, trace {}, line {}: {name}",
                        trace.name,
                        i + 1
                    );
                    eprintln!("  input    {}", child::shown(&line.text));
                    eprintln!("  original {}", child::shown(&line.answer));
                    eprintln!("  other    {}", child::shown(answer));
                }
                if same {
                    count(&mut table, &mut pairs, line);
                    line.call.iter().for_each(|_| progress.one_more());
                }
            }
            differences += !same as usize;
            if differences >= ENOUGH {
                break 'run;
            }
        }
        if !rest.is_empty() || !ended_well {
            differences += 1;
            eprintln!(
                "\nafter its answers: {}",
                child::shown(&rest[..rest.len().min(200)])
            );
        }
    }
    progress.end();
    drop(batches);
    // What the original's side has to say about itself comes first.
    maker
        .join()
        .map_err(|_| io::Error::other("the original's side broke off"))?;
    table.print();
    let (met, all) = (pairs.len(), STATES.len() * CALLS.len());
    println!("states before by calls met: {met} of {all}");
    println!("differences: {differences}");
    Ok(differences == 0)
}

impl Trace {
    fn input(&self) -> Vec<u8> {
        // What a trace chosen by hand is about stands in its header.
        let about = match self.name.parse::<u64>() {
            Ok(_) => String::new(),
            Err(_) => format!(": {}", self.name),
        };
        let mut all = format!("{HEADER}{about}\n").into_bytes();
        self.lines.iter().for_each(|l| all.extend(&l.text));
        all
    }
}

/// A line that was equal, by the columns of its answer.
fn count(table: &mut Table, pairs: &mut BTreeSet<(&'static str, String)>, line: &Line) {
    const ALL: &str = "all that was compared";
    let Some(call) = &line.call else {
        return table.add(ALL, "lines that do not fit", 1);
    };
    let answer = columns(&line.answer);
    let name = columns(&line.text).swap_remove(1);
    table.add(ALL, "calls", 1);
    match call.domain {
        true => table.add(ALL, "calls on the domain", 1),
        false => table.add(ALL, "calls off the domain", 1),
    }
    if call.at_deadline {
        table.add(ALL, "calls at a deadline's tick", 1);
    }
    table.add(ALL, "numbers", answer[10].len() as u64 / 8);
    table.add(ALL, "rows", answer[12].len() as u64 / 32);
    table.add("by call", &name, 1);
    table.add("by answer", &format!("{:>2}", answer[1]), 1);
    table.add("by state after the call", &answer[2], 1);
    if !answer[6].is_empty() {
        table.add("by cause", &answer[6], 1);
    }
    pairs.insert((call.before, name));
}

fn columns(line: &[u8]) -> Vec<String> {
    let text = String::from_utf8_lossy(line);
    text.trim_end().split(',').map(str::to_string).collect()
}

/// What has to come up in a sample: each of these at least once.
fn wanted() -> BTreeSet<String> {
    let answers = [0, 2, 3, 4, 5, 8, 9, 10, 11, 12, 13, 14].map(|a| format!("answer {a}"));
    let causes = [1, 2, 3, 4, 5, 6].map(|c| format!("cause {c}"));
    let states = STATES.map(|s| format!("state {s}"));
    let calls = CALLS.map(|c| format!("call {c}"));
    let told = STATES[2..].iter().map(|s| format!("told {s}"));
    let all = answers.into_iter().chain(causes).chain(states).chain(calls);
    all.chain(told).chain(["bad".into()]).collect()
}

/// What a trace shows: these, and which call met which state with which answer.
fn shows(trace: &Trace) -> BTreeSet<String> {
    let mut all = BTreeSet::new();
    for line in &trace.lines {
        let Some(call) = &line.call else {
            all.insert("bad".into());
            continue;
        };
        let (answer, name) = (columns(&line.answer), columns(&line.text).swap_remove(1));
        all.insert(format!("cause {}", answer[6]));
        all.insert(format!(
            "call {name} in {} {} {}",
            call.before, answer[1], answer[6]
        ));
        all.insert(format!("answer {}", answer[1]));
        all.insert(format!("state {}", answer[2]));
        all.insert(format!("told {}", answer[8]));
        all.insert(format!("call {name}"));
    }
    all
}

/// A sample of some 2,800 lines: those chosen by hand, and then, of 400 traces,
/// time after time the one that shows most that is not yet shown.
pub fn keep(seed: u64, folder: &Path) -> io::Result<bool> {
    const LINES: usize = 2_800;
    let plan = Plan::new(seed, true);
    let first = plan.directed();
    let mut traces: Vec<_> = (0..20)
        .chain(first..first + 380)
        .map(|n| plan.trace(n))
        .map(|t| (shows(&t), t))
        .collect();
    let wanted = wanted();
    let mut shown = BTreeSet::new();
    let (mut input, mut answers, mut lines) = (Vec::new(), Vec::new(), 0);
    let mut take = |trace: &Trace, lines: &mut usize| {
        *lines += trace.lines.len();
        input.extend(trace.input());
        trace.lines.iter().for_each(|l| answers.extend(&l.answer));
    };
    for trace in probes::all() {
        shown.extend(shows(&trace));
        take(&trace, &mut lines);
    }
    loop {
        let fit = traces
            .iter()
            .enumerate()
            .filter(|(_, (_, t))| lines + t.lines.len() <= LINES);
        let new = |all: &BTreeSet<String>| {
            let new: Vec<_> = all.difference(&shown).collect();
            // What has to come up is worth more than all else.
            new.len() + 1000 * new.iter().filter(|n| wanted.contains(**n)).count()
        };
        let Some((best, _)) = fit.max_by_key(|(_, (all, _))| new(all)) else {
            break;
        };
        let (all, trace) = traces.swap_remove(best);
        shown.extend(all);
        take(&trace, &mut lines);
    }
    for missing in wanted.difference(&shown) {
        return Err(io::Error::other(format!("the sample has no {missing}")));
    }
    println!("{lines} lines, {} ways of meeting a call", shown.len());
    write_sample(folder, &input, &answers)?;
    Ok(true)
}
