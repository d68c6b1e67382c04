//! plain_load N [--emit DIR]: what `ads load N` does, in plain Rust of std alone, without proofs.
//! It makes the description and the script, reads them back, runs the machine over the events with queues,
//! offers and a log that keeps the bytes, and counts.  Standard output: the summary line.  Standard error: the times.
//! --emit DIR also writes load.toml, load.script and load.log (what `ads replay load.toml load.script` has to print).
//! Written apart from the server, so its counts and its log are a second opinion.
use std::fmt::Write as _;
use std::time::Instant;

const ME: [u8; 8] = [5, 1, 2, 3, 1, 1, 0x53, 3]; // 5.1.2.3.1.1:851

fn client(c: u32) -> [u8; 8] {
    let p = (32768 + c as u16).to_le_bytes();
    [10, 0, 0, c as u8, 1, 1, p[0], p[1]]
}

// ---- making the script

fn hex_line(out: &mut Vec<u8>, c: u32, f: &[u8]) {
    const D: &[u8; 16] = b"0123456789abcdef";
    out.extend_from_slice(b"bytes ");
    out.extend_from_slice(c.to_string().as_bytes());
    out.push(b' ');
    for &b in f {
        out.push(D[(b >> 4) as usize]);
        out.push(D[(b & 15) as usize]);
    }
    out.push(b'\n');
}

fn request(f: &mut Vec<u8>, c: u32, command: u16, id: u32, words: &[u32], more: &[u8]) {
    let dl = (4 * words.len() + more.len()) as u32;
    f.clear();
    f.extend_from_slice(&[0, 0]);
    f.extend_from_slice(&(32 + dl).to_le_bytes());
    f.extend_from_slice(&ME);
    f.extend_from_slice(&client(c));
    f.extend_from_slice(&command.to_le_bytes());
    f.extend_from_slice(&4u16.to_le_bytes());
    f.extend_from_slice(&dl.to_le_bytes());
    f.extend_from_slice(&0u32.to_le_bytes());
    f.extend_from_slice(&id.to_le_bytes());
    for w in words {
        f.extend_from_slice(&w.to_le_bytes());
    }
    f.extend_from_slice(more);
}

fn make(n: u32) -> (String, Vec<u8>) {
    let mut d = String::from("schema = 1\nnet = \"5.1.2.3.1.1\"\n");
    for c in 1..=4 {
        let _ = write!(d, "[[route]]\nnet = \"10.0.0.{c}.1.1\"\nrights = \"control\"\n");
    }
    d.push_str("[[port]]\nport = 851\nname = \"Load\"\nmajor = 1\nminor = 0\nbuild = 0\ndata = 400\n");
    for i in 0..100 {
        let _ = write!(d, "[[port.symbol]]\nname = \"L.s{i}\"\ntype = \"DINT\"\narea = \"data\"\noffset = {}\n", 4 * i);
    }
    let mut s = Vec::new();
    let mut f = Vec::new();
    for c in 1..=4 {
        s.extend_from_slice(format!("open {c}\n").as_bytes());
    }
    for c in 1..=4u32 {
        for j in 0..10u32 {
            request(&mut f, c, 6, 1 + j, &[0x4040, 4 * (25 * (c - 1) + j), 4, 4, 0, 0], &[0; 16]);
            hex_line(&mut s, c, &f);
        }
    }
    let mut x = n as u64;
    for i in 1..=n as u64 {
        x = (x * 1103515245 + 12345) % 2147483648;
        let c = (x % 4 + 1) as u32;
        let sym = ((x / 4) % 100) as u32;
        if (x / 400) % 2 == 0 {
            request(&mut f, c, 2, 10 + i as u32, &[0x4040, 4 * sym, 4], &[]);
        } else {
            request(&mut f, c, 3, 10 + i as u32, &[0x4040, 4 * sym, 4, i as u32], &[]);
        }
        hex_line(&mut s, c, &f);
        if i % 10 == 0 {
            s.extend_from_slice(format!("tick {}\n", 100000 * i).as_bytes());
        }
    }
    s.extend_from_slice(format!("tick {}\n", 100000 * (n as u64 + 1)).as_bytes());
    (d, s)
}

// ---- reading it

enum Event {
    Opened(u32),
    Piece(u32, Vec<u8>),
    Tick(u64),
}

fn digit(b: u8) -> Option<u8> {
    match b {
        b'0'..=b'9' => Some(b - b'0'),
        b'a'..=b'f' => Some(b - b'a' + 10),
        b'A'..=b'F' => Some(b - b'A' + 10),
        _ => None,
    }
}

fn read_script(text: &[u8]) -> Option<Vec<Event>> {
    let mut out = Vec::new();
    for line in text.split(|&b| b == b'\n') {
        if line.is_empty() {
            continue;
        }
        let mut w = line.split(|&b| b == b' ');
        let word = w.next()?;
        let num: u64 = std::str::from_utf8(w.next()?).ok()?.parse().ok()?;
        match word {
            b"open" => out.push(Event::Opened(num as u32)),
            b"tick" => out.push(Event::Tick(num)),
            b"bytes" => {
                let mut v = Vec::with_capacity(line.len() / 2);
                for h in w {
                    if h.len() % 2 != 0 {
                        return None;
                    }
                    for p in h.chunks_exact(2) {
                        v.push(digit(p[0])? << 4 | digit(p[1])?);
                    }
                }
                out.push(Event::Piece(num as u32, v));
            }
            _ => return None,
        }
    }
    Some(out)
}

// ---- the machine

fn u16_at(b: &[u8], i: usize) -> u16 {
    u16::from_le_bytes([b[i], b[i + 1]])
}
fn u32_at(b: &[u8], i: usize) -> u32 {
    u32::from_le_bytes([b[i], b[i + 1], b[i + 2], b[i + 3]])
}

struct Note {
    at: usize,
    len: usize,
    change: bool,
    cycle: u32,
    last: Option<u64>,
    sent: Vec<u8>,
    to: [u8; 8],
}

struct Conn {
    num: u32,
    input: Vec<u8>,
    at: usize,
    queue: std::collections::VecDeque<Vec<u8>>,
    queued: usize,
    notes: Vec<Option<Note>>,
    live: usize,
    closing: bool,
}

#[derive(Default)]
struct Sum {
    connections: u64,
    requests: u64,
    replies: u64,
    samples: u64,
}

struct Core {
    data: Vec<u8>,
    conns: Vec<Conn>,
    sum: Sum,
    now: u64,
}

const QMAX: usize = 4_194_304;

impl Conn {
    fn push(&mut self, f: Vec<u8>) -> bool {
        if self.queued + f.len() > QMAX {
            self.closing = true;
            return false;
        }
        self.queued += f.len();
        self.queue.push_back(f);
        true
    }
}

fn head(to: &[u8], from: &[u8], command: u16, flags: u16, error: u32, id: u32, dl: usize) -> Vec<u8> {
    let mut f = Vec::with_capacity(38 + dl);
    f.extend_from_slice(&[0, 0]);
    f.extend_from_slice(&(32 + dl as u32).to_le_bytes());
    f.extend_from_slice(to);
    f.extend_from_slice(from);
    f.extend_from_slice(&command.to_le_bytes());
    f.extend_from_slice(&flags.to_le_bytes());
    f.extend_from_slice(&(dl as u32).to_le_bytes());
    f.extend_from_slice(&error.to_le_bytes());
    f.extend_from_slice(&id.to_le_bytes());
    f
}

fn reply(m: &[u8], error: u32, words: &[u32], more: &[u8]) -> Vec<u8> {
    let dl = 4 * words.len() + more.len();
    let mut f = head(&m[8..16], &m[0..8], u16_at(m, 16), 5, error, u32_at(m, 28), dl);
    for w in words {
        f.extend_from_slice(&w.to_le_bytes());
    }
    f.extend_from_slice(more);
    f
}

fn reach(size: usize, group: u32, offset: u32, len: u32) -> Result<(usize, usize), u32> {
    if group != 0x4040 {
        return Err(0x702);
    }
    if offset as usize > size {
        return Err(0x703);
    }
    if offset as u64 + len as u64 > size as u64 || len > 2_000_000 {
        return Err(0x705);
    }
    Ok((offset as usize, len as usize))
}

enum Taken {
    Answer(Vec<u8>),
    Silent,
    Close,
}

fn answer(data: &mut [u8], c: &mut Conn, m: &[u8]) -> Taken {
    use Taken::*;
    let d = &m[32..];
    if u32_at(m, 20) as usize != d.len() {
        return Answer(reply(m, 0xE, &[], &[]));
    }
    let flags = u16_at(m, 18);
    if flags & 1 != 0 {
        return Silent;
    }
    if flags != 4 {
        return Answer(reply(m, 0xB, &[], &[]));
    }
    let s = &m[8..14];
    if !(s[0] == 10 && s[1] == 0 && s[2] == 0 && (1..=4).contains(&s[3]) && s[4] == 1 && s[5] == 1) {
        return Close;
    }
    if m[0..6] != ME[0..6] {
        return Answer(reply(m, 7, &[], &[]));
    }
    if m[6..8] != ME[6..8] {
        return Answer(reply(m, 6, &[], &[]));
    }
    Answer(match u16_at(m, 16) {
        2 => {
            if d.len() != 12 {
                reply(m, 0, &[0x705, 0], &[])
            } else {
                match reach(data.len(), u32_at(d, 0), u32_at(d, 4), u32_at(d, 8)) {
                    Err(e) => reply(m, 0, &[e, 0], &[]),
                    Ok((at, len)) => reply(m, 0, &[0, len as u32], &data[at..at + len]),
                }
            }
        }
        3 => {
            if d.len() < 12 || u32_at(d, 8) as usize != d.len() - 12 {
                reply(m, 0, &[0x705], &[])
            } else {
                match reach(data.len(), u32_at(d, 0), u32_at(d, 4), u32_at(d, 8)) {
                    Err(e) => reply(m, 0, &[e], &[]),
                    Ok((at, len)) => {
                        data[at..at + len].copy_from_slice(&d[12..]);
                        reply(m, 0, &[0], &[])
                    }
                }
            }
        }
        4 if d.is_empty() => reply(m, 0, &[0, 5], &[]),
        4 => reply(m, 0, &[0x705, 0], &[]),
        6 => {
            let r = if d.len() != 40 {
                Err(0x705)
            } else if u32_at(d, 12) != 3 && u32_at(d, 12) != 4 {
                Err(0x713)
            } else if u32_at(d, 8) > 2048 {
                Err(0x717)
            } else {
                reach(data.len(), u32_at(d, 0), u32_at(d, 4), u32_at(d, 8))
            };
            match r {
                Err(e) => reply(m, 0, &[e, 0], &[]),
                Ok((_, 0)) => reply(m, 0, &[0x705, 0], &[]),
                Ok(_) if c.live == 512 => reply(m, 0, &[0x716, 0], &[]),
                Ok((at, len)) => {
                    let mut to = [0; 8];
                    to.copy_from_slice(&m[8..16]);
                    c.notes.push(Some(Note { at, len, change: u32_at(d, 12) == 4, cycle: u32_at(d, 20), last: None, sent: Vec::with_capacity(len), to }));
                    c.live += 1;
                    reply(m, 0, &[0, c.notes.len() as u32], &[])
                }
            }
        }
        7 => {
            let h = if d.len() == 4 { u32_at(d, 0) as usize } else { 0 };
            if d.len() != 4 {
                reply(m, 0, &[0x705], &[])
            } else if h == 0 || h > c.notes.len() || c.notes[h - 1].take().is_none() {
                reply(m, 0, &[0x714], &[])
            } else {
                c.live -= 1;
                reply(m, 0, &[0], &[])
            }
        }
        8 => return Silent,
        _ => reply(m, 8, &[], &[]),
    })
}

impl Core {
    fn step(&mut self, e: &Event) {
        match e {
            Event::Opened(n) => {
                self.sum.connections += 1;
                self.conns.push(Conn { num: *n, input: Vec::new(), at: 0, queue: Default::default(), queued: 0, notes: Vec::new(), live: 0, closing: false });
            }
            Event::Piece(n, bytes) => {
                let Some(c) = self.conns.iter_mut().find(|c| c.num == *n) else { return };
                if c.closing {
                    return;
                }
                c.input.extend_from_slice(bytes);
                while !c.closing && c.input.len() - c.at >= 6 {
                    let l = u32_at(&c.input, c.at + 2) as usize;
                    if c.input[c.at] != 0 || c.input[c.at + 1] != 0 || !(32..=2_097_152).contains(&l) {
                        c.closing = true;
                        break;
                    }
                    if c.input.len() - c.at < 6 + l {
                        break;
                    }
                    let m = c.input[c.at + 6..c.at + 6 + l].to_vec();
                    c.at += 6 + l;
                    self.sum.requests += 1;
                    match answer(&mut self.data, c, &m) {
                        Taken::Answer(f) => {
                            if c.push(f) {
                                self.sum.replies += 1;
                            }
                        }
                        Taken::Silent => {}
                        Taken::Close => c.closing = true,
                    }
                }
                c.input.drain(..c.at);
                c.at = 0;
            }
            Event::Tick(t) => {
                self.now = self.now.max(*t);
                let now = self.now;
                for c in self.conns.iter_mut().filter(|c| !c.closing) {
                    let mut groups: Vec<([u8; 8], u32, Vec<u8>)> = Vec::new();
                    for (i, k) in c.notes.iter_mut().enumerate() {
                        let Some(k) = k else { continue };
                        if let Some(last) = k.last {
                            if now - last < k.cycle.max(1) as u64 {
                                continue;
                            }
                        }
                        let first = k.last.is_none();
                        k.last = Some(now);
                        let b = &self.data[k.at..k.at + k.len];
                        if !first && k.change && k.sent == b {
                            continue;
                        }
                        k.sent.clear();
                        k.sent.extend_from_slice(b);
                        let g = match groups.iter_mut().position(|g| g.0 == k.to) {
                            Some(p) => &mut groups[p],
                            None => {
                                groups.push((k.to, 0, Vec::new()));
                                groups.last_mut().unwrap()
                            }
                        };
                        g.1 += 1;
                        g.2.extend_from_slice(&(i as u32 + 1).to_le_bytes());
                        g.2.extend_from_slice(&(k.len as u32).to_le_bytes());
                        g.2.extend_from_slice(b);
                    }
                    for (to, n, s) in groups {
                        let mut f = head(&to, &ME, 8, 4, 0, 0, 20 + s.len());
                        f.extend_from_slice(&(16 + s.len() as u32).to_le_bytes());
                        f.extend_from_slice(&1u32.to_le_bytes());
                        f.extend_from_slice(&now.to_le_bytes());
                        f.extend_from_slice(&n.to_le_bytes());
                        f.extend_from_slice(&s);
                        if c.push(f) {
                            self.sum.samples += n as u64;
                        }
                    }
                }
            }
        }
    }
}

fn main() {
    let w: Vec<String> = std::env::args().skip(1).collect();
    let n: u32 = match w.first().and_then(|s| s.parse().ok()) {
        Some(n) if n <= 100_000 => n,
        _ => {
            eprintln!("plain_core N [--emit DIR]");
            std::process::exit(1)
        }
    };
    let t0 = Instant::now();
    let (desc, script) = make(n);
    let t1 = Instant::now();
    let events = read_script(&script).expect("the script");
    let t2 = Instant::now();
    let mut core = Core { data: vec![0; 400], conns: Vec::new(), sum: Sum::default(), now: 0 };
    let mut log: Vec<(u32, u32, Vec<u8>)> = Vec::new();
    for e in &events {
        core.step(e);
        for c in core.conns.iter_mut() {
            while let Some(f) = c.queue.pop_front() {
                c.queued -= f.len();
                log.push((c.num, f.len() as u32, f));
            }
        }
        core.conns.retain(|c| !c.closing);
    }
    let t3 = Instant::now();
    let s = &core.sum;
    let line = format!("connections {} requests {} replies {} samples {} reloads 0 0\n", s.connections, s.requests, s.replies, s.samples);
    print!("{line}");
    eprintln!(
        "plain_core: make {:.2} ms, read {:.2} ms, run {:.2} ms, whole {:.2} ms, script {} bytes, log {} moves",
        (t1 - t0).as_secs_f64() * 1e3, (t2 - t1).as_secs_f64() * 1e3, (t3 - t2).as_secs_f64() * 1e3, t0.elapsed().as_secs_f64() * 1e3, script.len(), log.len()
    );
    if let (Some("--emit"), Some(dir)) = (w.get(1).map(|s| s.as_str()), w.get(2)) {
        let mut text = String::new();
        for (c, _, b) in &log {
            let _ = write!(text, "out {c} ");
            for x in b {
                let _ = write!(text, "{x:02x}");
            }
            text.push('\n');
        }
        text.push_str(&line);
        std::fs::write(format!("{dir}/load.toml"), desc).unwrap();
        std::fs::write(format!("{dir}/load.script"), &script).unwrap();
        std::fs::write(format!("{dir}/load.log"), text).unwrap();
    }
}
