//! Requests and answers of `serve`: docs/SERVE.md.
use std::io::{BufReader, Read, Write};
use std::process::{Child, ChildStdout, Command, Stdio};

#[derive(Clone, Default)]
pub struct Request {
    pub call: u32,
    pub x: u32,
    pub y: u32,
    pub result: (u32, u32),
    pub work: (u32, u32),
    pub pool: Vec<u8>,
    pub table: Vec<u32>,
    pub lists: [Vec<u32>; 4],
    /// pool and table are lent whole, with zeros behind what is sent
    pub whole: bool,
}
pub const RESULT_WAS: u32 = 0xaaaa_aaaa;
pub const WORK_WAS: u32 = 0x5555_5555;
impl Request {
    pub fn new(call: u32) -> Self { Request { call, result: (RESULT_WAS, 8192), work: (WORK_WAS, 16384), whole: true, ..Default::default() } }
    pub fn bytes(&self, o: &mut Vec<u8>) {
        let pad = (4 - self.pool.len() % 4) % 4;
        let n = self.pool.len() + pad + 4 * (self.table.len() + self.lists.iter().map(|l| l.len()).sum::<usize>());
        let l = &self.lists;
        for w in [n as u32, self.call, self.x, self.y, self.result.0, self.result.1, self.work.0, self.work.1, self.pool.len() as u32, self.table.len() as u32,
            l[0].len() as u32, l[1].len() as u32, 0, l[2].len() as u32, l[3].len() as u32, self.whole as u32] { o.extend(w.to_le_bytes()) }
        o.extend(&self.pool);
        o.extend(std::iter::repeat_n(0, pad));
        for w in self.table.iter().chain(l.iter().flatten()) { o.extend(w.to_le_bytes()) }
    }
    /// the request that begins here, and how many bytes it has
    pub fn from(d: &[u8]) -> (Self, usize) {
        let w = |i: usize| u32::from_le_bytes(d[4 * i..4 * i + 4].try_into().unwrap());
        let pool = w(8) as usize;
        let mut at = 16 + pool.div_ceil(4);
        let mut take = |n: u32| { let v = (at..at + n as usize).map(w).collect::<Vec<u32>>(); at += n as usize; v };
        let table = take(w(9));
        let lists = [take(w(10)), take(w(11)), take(w(13)), take(w(14))];
        (Request { call: w(1), x: w(2), y: w(3), result: (w(4), w(5)), work: (w(6), w(7)), pool: d[64..64 + pool].to_vec(), table, lists, whole: w(15) == 1 }, 64 + w(0) as usize)
    }
    pub fn pool_lent(&self) -> usize { if self.whole { self.pool.len().max(8192) } else { self.pool.len() } }
    pub fn table_lent(&self) -> usize { if self.whole { self.table.len().max(257) } else { self.table.len() } }
}

#[derive(Clone, Debug, Default, PartialEq)]
pub struct Reply { pub refusal: u32, pub value: u32, pub more: u32, pub rounds: u32, pub flags: u32, pub words: Vec<u32> }

pub struct Serve { child: Child, out: BufReader<ChildStdout>, pub path: String }
impl Serve {
    pub fn start(path: &str) -> Self {
        let mut child = Command::new(path).stdin(Stdio::piped()).stdout(Stdio::piped()).spawn().expect("serve");
        let out = BufReader::with_capacity(1 << 20, child.stdout.take().unwrap());
        Serve { child, out, path: path.into() }
    }
    fn word(b: &[u8], i: usize) -> u32 { u32::from_le_bytes(b[4 * i..4 * i + 4].try_into().unwrap()) }
    pub fn read(&mut self) -> Option<Reply> {
        let mut head = [0u8; 28];
        self.out.read_exact(&mut head).ok()?;
        let n = Self::word(&head, 6) as usize;
        let rest = Self::word(&head, 0) as usize - 28;
        let mut body = vec![0u8; rest];
        self.out.read_exact(&mut body).ok()?;
        Some(Reply { refusal: Self::word(&head, 1), value: Self::word(&head, 2), more: Self::word(&head, 3), rounds: Self::word(&head, 4), flags: Self::word(&head, 5),
            words: (0..n.min(rest / 4)).map(|i| Self::word(&body, i)).collect() })
    }
    /// the answers to all of these; writing and reading go on side by side
    pub fn ask(&mut self, bytes: Vec<u8>, count: usize) -> Vec<Reply> {
        let mut stdin = self.child.stdin.take().unwrap();
        let t = std::thread::spawn(move || { let r = stdin.write_all(&bytes).and_then(|_| stdin.flush()); (stdin, r) });
        let mut v = vec![];
        for _ in 0..count { match self.read() { Some(r) => v.push(r), None => break } }
        let (stdin, _) = t.join().unwrap();
        self.child.stdin = Some(stdin);
        v
    }
    pub fn stop(mut self) -> bool {
        drop(self.child.stdin.take());
        let mut rest = vec![];
        let _ = self.out.read_to_end(&mut rest);
        self.child.wait().map(|s| s.success()).unwrap_or(false) && rest.is_empty()
    }
}
