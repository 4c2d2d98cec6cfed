//! The job of `maxpressure run` as a good Rust programmer would write it without proofs: the yardstick for its speed.
//!
//!     plain NET.toml < STREAM > LOG
//!
//! The log has no header. The network file breaks no rule, has a key a line, and gives the movements in the order of the
//! links that they leave, as those of bench/networks.py.
use std::collections::HashMap;
use std::io::{self, BufRead, BufReader, Read, Write};
use std::ops::Range;
use std::{env, fs, process};

struct Link {
    burst: i64,
    rate: i64,
    out: Range<usize>,
    /// For each place in a round of the split, how many vehicles each movement out of the link got before it.
    counts: Vec<i64>,
}

struct Movement {
    from: usize,
    /// The number of links where it leads out of the network.
    to: usize,
    share: i64,
    flow: i64,
}

#[derive(Default)]
struct Network {
    shares: i64,
    per: i64,
    links: Vec<Link>,
    movements: Vec<Movement>,
    junctions: Vec<Vec<Vec<usize>>>,
}

fn read_network(text: &str) -> Network {
    let (mut net, mut links, mut movements) = (Network::default(), HashMap::new(), HashMap::new());
    for table in text.split("\n[[") {
        let keys: HashMap<&str, &str> = table.lines().filter_map(|line| line.split_once(" = ")).collect();
        let number = |key| keys.get(key).map_or(0, |it| it.parse().expect("a number"));
        match table.split(']').next() {
            Some("link") => {
                links.insert(keys["name"], net.links.len());
                net.links.push(Link { burst: number("burst"), rate: number("rate"), out: 0..0, counts: vec![] });
            }
            Some("movement") => {
                movements.insert(keys["name"].trim_matches('"'), net.movements.len());
                let (from, to) = (links[keys["from"]], links.get(keys["to"]).copied().unwrap_or(links.len()));
                net.movements.push(Movement { from, to, share: number("share"), flow: number("flow") });
            }
            Some("junction") => {
                let stage = |text: &str| text.split('"').skip(1).step_by(2).map(|it| movements[it]).collect();
                net.junctions.push(keys["stages"].split("],").map(stage).collect());
            }
            _ => (net.shares, net.per) = (number("shares"), number("per")),
        }
    }
    for (i, link) in net.links.iter_mut().enumerate() {
        let begin = net.movements.partition_point(|it| it.from < i);
        link.out = begin..net.movements.partition_point(|it| it.from <= i);
        link.counts = round(&net.movements[link.out.clone()], net.shares);
    }
    net
}

/// The counts before each place of a round: each vehicle joins the movement that lacks most of its share.
fn round(out: &[Movement], shares: i64) -> Vec<i64> {
    let (mut counts, mut now) = (vec![], vec![0; out.len()]);
    for vehicle in 1..=shares {
        counts.extend(&now);
        let lack = |k: usize| out[k].share * vehicle - shares * now[k];
        let next = (1..out.len()).fold(0, |best, k| if lack(k) > lack(best) { k } else { best });
        now[next] += 1;
    }
    counts
}

struct State {
    /// What each bucket holds, in vehicles times the rate length.
    held: Vec<i64>,
    queues: Vec<i64>,
    weights: Vec<i64>,
    /// By link, and last for the outside.
    queued: Vec<i64>,
    received: Vec<i64>,
    places: Vec<usize>,
    stages: Vec<usize>,
    entered: i64,
    departed: i64,
}

impl State {
    fn new(net: &Network, fed: usize) -> State {
        let (links, movements) = (net.links.len(), net.movements.len());
        State {
            held: vec![0; fed],
            queues: vec![0; movements],
            weights: vec![0; movements],
            queued: vec![0; links + 1],
            received: vec![0; links + 1],
            places: vec![0; links],
            stages: vec![0; net.junctions.len()],
            entered: 0,
            departed: 0,
        }
    }

    /// Closes a period, or names the first link that is above its bucket.
    fn period(&mut self, net: &Network, fed: &[usize], arrivals: &[i64]) -> Result<(), usize> {
        self.received.fill(0);
        for ((&link, held), &count) in fed.iter().zip(&mut self.held).zip(arrivals) {
            let it = &net.links[link];
            *held = (*held + net.per * count - it.rate).max(0);
            if *held > net.per * it.burst {
                return Err(link);
            }
            self.received[link] = count;
            self.entered += count;
        }
        self.weigh(net);
        self.serve(net);
        self.split(net);
        Ok(())
    }

    fn weigh(&mut self, net: &Network) {
        for (link, queued) in net.links.iter().zip(&mut self.queued) {
            let out = net.movements[link.out.clone()].iter().zip(&self.queues[link.out.clone()]);
            *queued = out.map(|(it, queue)| it.share * queue).sum();
        }
        for ((it, queue), weight) in net.movements.iter().zip(&self.queues).zip(&mut self.weights) {
            *weight = (net.shares * queue - self.queued[it.to]).max(0);
        }
    }

    /// Gives green to the first stage of greatest pressure of each junction.
    fn serve(&mut self, net: &Network) {
        for (stages, chosen) in net.junctions.iter().zip(&mut self.stages) {
            let (mut best, mut most) = (0, -1);
            for (i, stage) in stages.iter().enumerate() {
                let pressure = stage.iter().map(|&k| net.movements[k].flow * self.weights[k]).sum();
                if pressure > most {
                    (best, most) = (i, pressure);
                }
            }
            *chosen = best + 1;
            for &k in stages[best].iter().filter(|&&k| self.weights[k] > 0) {
                let passed = net.movements[k].flow.min(self.queues[k]);
                self.queues[k] -= passed;
                self.received[net.movements[k].to] += passed;
            }
        }
        self.departed += self.received[net.links.len()];
    }

    /// Has what each link received join the movements out of it.
    fn split(&mut self, net: &Network) {
        for ((link, &received), place) in net.links.iter().zip(&self.received).zip(&mut self.places) {
            if received == 0 {
                continue;
            }
            let (width, end) = (link.out.len(), *place as i64 + received);
            let (rounds, next) = match end < net.shares {
                true => (0, end as usize),
                false => (end / net.shares, (end % net.shares) as usize),
            };
            let before = &link.counts[*place * width..][..width];
            let after = &link.counts[next * width..][..width];
            let own = net.movements[link.out.clone()].iter().zip(&mut self.queues[link.out.clone()]);
            for (((it, queue), after), before) in own.zip(after).zip(before) {
                *queue += rounds * it.share + after - before;
            }
            *place = next;
        }
    }
}

fn without_blanks(mut text: &[u8]) -> &[u8] {
    while let [b' ' | b'\t', rest @ ..] | [rest @ .., b' ' | b'\t'] = text {
        text = rest;
    }
    text
}

/// The counts of a line of the stream, where it has as many as there are fed links.
fn read_counts(line: &[u8], fed: usize, counts: &mut Vec<i64>) -> Option<()> {
    counts.clear();
    for text in line.split(|&it| it == b',').map(without_blanks) {
        let is_plain = matches!(text, [_] | [b'1'..=b'9', ..]) && text.len() <= 9;
        if !is_plain || !text.iter().all(u8::is_ascii_digit) {
            return None;
        }
        counts.push(text.iter().fold(0, |number, digit| 10 * number + i64::from(digit - b'0')));
    }
    (counts.len() == fed).then_some(())
}

fn put_numbers(line: &mut Vec<u8>, word: &str, numbers: impl Iterator<Item = i64>) {
    line.extend_from_slice(word.as_bytes());
    for number in numbers {
        // The text with a blank before it. Most numbers have a digit or two.
        let digit = |power: i64| b'0' + (number / power % 10) as u8;
        match number {
            0..=9 => line.extend_from_slice(&[b' ', digit(1)]),
            10..=99 => line.extend_from_slice(&[b' ', digit(10), digit(1)]),
            100..=999 => line.extend_from_slice(&[b' ', digit(100), digit(10), digit(1)]),
            _ => write!(line, " {number}").expect("a vector takes all"),
        }
    }
}

fn refuse(status: i32, message: String) -> ! {
    eprintln!("{message}");
    process::exit(status)
}

fn main() -> io::Result<()> {
    let net = read_network(&fs::read_to_string(env::args().nth(1).expect("plain NET.toml"))?);
    let fed: Vec<usize> = (0..net.links.len()).filter(|&i| net.links[i].burst + net.links[i].rate > 0).collect();
    let (mut input, mut output) = (BufReader::with_capacity(1 << 16, io::stdin().lock()), io::stdout().lock());
    let (mut state, mut counts) = (State::new(&net, fed.len()), vec![]);
    let (mut text, mut line) = (vec![], Vec::<u8>::new());
    let (mut number, mut period) = (0, 0);
    loop {
        text.clear();
        if (&mut input).take(2050).read_until(b'\n', &mut text)? == 0 {
            break;
        }
        number += 1;
        let own = text.strip_suffix(b"\n").unwrap_or(&text);
        if own.len() > 2048 {
            refuse(7, format!("line {number} long"));
        }
        let own = own.strip_suffix(b"\r").unwrap_or(own);
        if own.starts_with(b"#") || without_blanks(own).is_empty() {
            continue;
        }
        if read_counts(own, fed.len(), &mut counts).is_none() {
            refuse(7, format!("line {number} grammar"));
        }
        period += 1;
        if let Err(link) = state.period(&net, &fed, &counts) {
            refuse(8, format!("line {number} above period {period} link {}", link + 1));
        }
        line.clear();
        put_numbers(&mut line, "p", [period].into_iter());
        put_numbers(&mut line, " a", counts.iter().copied());
        put_numbers(&mut line, " s", state.stages.iter().map(|&it| it as i64));
        put_numbers(&mut line, " q", state.queues.iter().copied());
        line.push(b'\n');
        output.write_all(&line)?;
    }
    let queued: i64 = state.queues.iter().sum();
    writeln!(output, "end {period} in {} out {} queued {queued}", state.entered, state.departed)
}
