//! The library called from Rust: raw pointers and lengths, the standard library alone.
//!
//!     rustc --edition 2024 -O examples/caller.rs -C link-arg=target/staticlib/libbroker.a -o caller
//!
//! `Store` owns the words and is the only place with `unsafe`. What the header asks of a caller holds
//! by its types: a slice's pointer and length belong together, `&mut` is the only way to the words
//! during a call, and two slices that are borrowed so do not overlap.

unsafe extern "C" {
    fn broker_open(store: *mut u64, n: usize, entries: u64, leak: u64, noop: u64) -> u64;
    fn broker_append(
        store: *mut u64,
        n: usize,
        topic: u8,
        ledger: u64,
        entry: u64,
        handle: u64,
        batch: u64,
    ) -> u64;
    fn broker_subscribe(
        store: *mut u64,
        n: usize,
        consumer: u64,
        kind: u64,
        topic: u8,
        subscription: u8,
    ) -> u64;
    fn broker_flow(store: *mut u64, n: usize, consumer: u64, grant: u32) -> u64;
    fn broker_ack(store: *mut u64, n: usize, consumer: u64, list: *const u64, m: usize) -> u64;
    fn broker_push(store: *mut u64, n: usize, list: *mut u64, m: usize) -> u64;
}

const SHARED: u64 = 1;
const LIST_SHORT: u8 = 15;
const RECORD: usize = 13;

/// The value of a call that is done, or why it was refused: the number, and with 15 how many are due.
type Answer = Result<i64, (u8, i64)>;

fn apart(answer: u64) -> Answer {
    let (number, value) = ((answer % 256) as u8, answer as i64 >> 8);
    if number == 0 { Ok(value) } else { Err((number, value)) }
}

struct Store(Vec<u64>);

// In each call the pointer and the length are those of one live slice, and no two slices overlap.
impl Store {
    fn open(entries: u64) -> Result<Store, (u8, i64)> {
        let mut words = vec![0; 4096 + 128 * entries.min(4096) as usize];
        apart(unsafe { broker_open(words.as_mut_ptr(), words.len(), entries, 0, 0) })?;
        Ok(Store(words))
    }

    fn append(&mut self, topic: u8, id: (u64, u64), handle: u64, batch: u64) -> Answer {
        let (p, n) = (self.0.as_mut_ptr(), self.0.len());
        apart(unsafe { broker_append(p, n, topic, id.0, id.1, handle, batch) })
    }

    fn subscribe(&mut self, consumer: u64, topic: u8, subscription: u8) -> Answer {
        let (p, n) = (self.0.as_mut_ptr(), self.0.len());
        apart(unsafe { broker_subscribe(p, n, consumer, SHARED, topic, subscription) })
    }

    fn flow(&mut self, consumer: u64, grant: u32) -> Answer {
        apart(unsafe { broker_flow(self.0.as_mut_ptr(), self.0.len(), consumer, grant) })
    }

    fn ack(&mut self, consumer: u64, list: &[u64]) -> Answer {
        let (p, n) = (self.0.as_mut_ptr(), self.0.len());
        apart(unsafe { broker_ack(p, n, consumer, list.as_ptr(), list.len()) })
    }

    /// The records of all that is due: a first push into no room says how many there are.
    fn push(&mut self) -> Result<Vec<[u64; RECORD]>, (u8, i64)> {
        let mut list = Vec::new();
        let mut answer = self.push_into(&mut list);
        if let Err((LIST_SHORT, due)) = answer {
            list = vec![0; RECORD * due as usize];
            answer = self.push_into(&mut list);
        }
        answer?;
        Ok(list.chunks(RECORD).map(|r| r.try_into().expect("13 words")).collect())
    }

    fn push_into(&mut self, list: &mut [u64]) -> Answer {
        let (p, n) = (self.0.as_mut_ptr(), self.0.len());
        apart(unsafe { broker_push(p, n, list.as_mut_ptr(), list.len()) })
    }
}

fn main() -> Result<(), (u8, i64)> {
    let mut store = Store::open(32)?;
    store.subscribe(7, 1, 1)?;
    store.subscribe(8, 1, 1)?;
    store.append(1, (1, 0), 500, 0)?;
    store.append(1, (1, 1), 501, 3)?;
    println!("permits of 7 after a flow of 2: {}", store.flow(7, 2)?);
    println!("permits of 8 after a flow of 1: {}", store.flow(8, 1)?);
    for r in store.push()? {
        println!(
            "{} gets ({},{}), handle {}, cost {}, permits left {}",
            r[0], r[1], r[2], r[3], r[11], r[12] as i64
        );
    }
    println!("7 acks (1,0): mark-delete {}", store.ack(7, &[1, 0, 0])? / 2);
    println!("flow of an unknown id: {:?}", store.flow(99, 1));
    Ok(())
}
