// The block store in plain Rust, for the comparison of speed: same format, same checks, same rounds.

const BLOCK: usize = 512;
const SLOTS: u32 = 64;

#[derive(Clone, Copy)]
struct Rule {
    address: u32,
    prefix: u8,
    action: u8,
    first: u16,
    last: u16,
}

const OPEN: Rule = Rule { address: 0, prefix: 0, action: 0, first: 0, last: 65535 };

#[derive(Debug)]
#[allow(dead_code)]
enum Refusal {
    WrongSize,
    SlotOutside(u32),
    Damaged(u8, u32),
    NoRule,
}

impl Rule {
    fn new(address: u32, prefix: u8, action: u8, first: u16, last: u16) -> Result<Rule, Refusal> {
        if prefix <= 32 && (address as u64) % (1u64 << (32 - prefix)) == 0 && first <= last && action <= 1 {
            Ok(Rule { address, prefix, action, first, last })
        } else {
            Err(Refusal::NoRule)
        }
    }

    fn from_record(bytes: &[u8]) -> Option<Rule> {
        if bytes[10] != 0 || bytes[11] != 0 {
            return None;
        }
        Rule::new(
            u32::from_be_bytes([bytes[0], bytes[1], bytes[2], bytes[3]]),
            bytes[4],
            bytes[5],
            u16::from_be_bytes([bytes[6], bytes[7]]),
            u16::from_be_bytes([bytes[8], bytes[9]]),
        )
        .ok()
    }

    fn record(&self) -> [u8; 12] {
        let mut bytes = [0; 12];
        bytes[0..4].copy_from_slice(&self.address.to_be_bytes());
        bytes[4] = self.prefix;
        bytes[5] = self.action;
        bytes[6..8].copy_from_slice(&self.first.to_be_bytes());
        bytes[8..10].copy_from_slice(&self.last.to_be_bytes());
        bytes
    }
}

fn check(bytes: &[u8]) -> u16 {
    let mut sum: u32 = bytes.chunks_exact(2).map(|w| u16::from_be_bytes([w[0], w[1]]) as u32).sum();
    while sum > 0xffff {
        sum = (sum & 0xffff) + (sum >> 16);
    }
    !(sum as u16)
}

struct Store {
    bytes: Vec<u8>,
    count: u32,
}

impl Store {
    fn new(count: u32) -> Result<Store, Refusal> {
        if count == 0 || count > 64 {
            return Err(Refusal::WrongSize);
        }
        let blocks = count.div_ceil(32);
        let mut store = Store { bytes: vec![0; BLOCK * blocks as usize], count };
        for number in 0..blocks {
            let slots = store.slots_in(number);
            let block = store.block_mut(number);
            block[2] = number as u8;
            block[3] = slots as u8;
            for i in 0..slots as usize {
                block[16 + 12 * i..28 + 12 * i].copy_from_slice(&OPEN.record());
            }
            seal(block);
        }
        Ok(store)
    }

    fn slots_in(&self, number: u32) -> u32 {
        (self.count - 32 * number).min(32)
    }

    fn block_mut(&mut self, number: u32) -> &mut [u8] {
        let start = BLOCK * number as usize;
        &mut self.bytes[start..start + BLOCK]
    }

    fn damage(&self, block: &[u8], number: u32) -> Option<u8> {
        let slots = self.slots_in(number);
        if u16::from_be_bytes([block[0], block[1]]) != check(&block[2..]) {
            return Some(17);
        }
        if block[2] as u32 != number || block[3] as u32 != slots || block[4..16].iter().any(|b| *b != 0) {
            return Some(18);
        }
        let end = 16 + 12 * slots as usize;
        if block[16..end].chunks_exact(12).any(|r| Rule::from_record(r).is_none()) || block[end..].iter().any(|b| *b != 0) {
            return Some(19);
        }
        None
    }

    fn get(&self, slot: u32) -> Result<Rule, Refusal> {
        if slot >= self.count {
            return Err(Refusal::SlotOutside(slot));
        }
        let number = slot / 32;
        let start = BLOCK * number as usize;
        let block = &self.bytes[start..start + BLOCK];
        if let Some(damage) = self.damage(block, number) {
            return Err(Refusal::Damaged(damage, number));
        }
        let at = 16 + 12 * (slot % 32) as usize;
        Rule::from_record(&block[at..at + 12]).ok_or(Refusal::Damaged(19, number))
    }

    fn put(&mut self, slot: u32, rule: Rule) -> Result<(), Refusal> {
        self.get(slot)?;
        let block = self.block_mut(slot / 32);
        let at = 16 + 12 * (slot % 32) as usize;
        block[at..at + 12].copy_from_slice(&rule.record());
        seal(block);
        Ok(())
    }
}

fn seal(block: &mut [u8]) {
    let check = check(&block[2..]).to_be_bytes();
    block[0..2].copy_from_slice(&check);
}

fn some_rule(round: u32) -> Result<Rule, Refusal> {
    Rule::new(round.wrapping_mul(256), 24, (round % 2) as u8, (round % 50000) as u16, 65535)
}

fn gets(store: &Store, rounds: u32) -> Result<u64, Refusal> {
    let mut sum = 0u64;
    for round in 0..rounds {
        let rule = store.get(round.wrapping_mul(11) % SLOTS)?;
        sum = sum.wrapping_add(rule.first as u64 + rule.address as u64);
    }
    Ok(sum)
}

fn puts(store: &mut Store, rounds: u32) -> Result<u64, Refusal> {
    for round in 0..rounds {
        store.put(round.wrapping_mul(7) % SLOTS, some_rule(round)?)?;
    }
    gets(store, SLOTS)
}

fn main() {
    let words: Vec<String> = std::env::args().skip(1).collect();
    let rounds: u32 = words[1].parse().unwrap();
    let mut store = Store::new(SLOTS).unwrap();
    puts(&mut store, 2 * SLOTS).unwrap();
    let sum = if words[0] == "gets" { gets(&store, rounds) } else { puts(&mut store, rounds) };
    println!("{} {} {}", words[0], rounds, sum.unwrap());
}
