//! Seeded random numbers, the choices made with them, and the pools of numbers and devices that calls draw from.

/// The generator "splitmix64".
pub struct Random {
    state: u64,
}

pub type Device = [u8; 16];

/// Numbers at the edges of their widths.
pub const EDGES: [u64; 12] = [0, 1, 2, 7, 255, 256, 0xffff_ffff, 0x1_0000_0000, 0x7fff_ffff_ffff_ffff, 0x8000_0000_0000_0000, u64::MAX - 1, u64::MAX];

impl Random {
    pub fn new(seed: u64) -> Random {
        Random { state: seed }
    }

    pub fn next(&mut self) -> u64 {
        self.state = self.state.wrapping_add(0x9e37_79b9_7f4a_7c15);
        let mut z = self.state;
        z = (z ^ (z >> 30)).wrapping_mul(0xbf58_476d_1ce4_e5b9);
        z = (z ^ (z >> 27)).wrapping_mul(0x94d0_49bb_1331_11eb);
        z ^ (z >> 31)
    }

    /// A number below n, which is above 0.
    pub fn below(&mut self, n: u64) -> u64 {
        self.next() % n
    }

    pub fn size(&mut self, below: usize) -> usize {
        self.below(below as u64) as usize
    }

    pub fn percent(&mut self, chance: u64) -> bool {
        self.below(100) < chance
    }

    pub fn pick<T: Copy>(&mut self, from: &[T]) -> T {
        from[self.size(from.len())]
    }

    /// One of the choices, each as often as its weight says.
    pub fn weighted<T: Copy>(&mut self, choices: &[(u64, T)]) -> T {
        let mut left = self.below(choices.iter().map(|(weight, _)| weight).sum());
        for (weight, choice) in choices {
            if left < *weight {
                return *choice;
            }
            left -= weight;
        }
        unreachable!("the weights add up")
    }

    pub fn shuffle<T>(&mut self, items: &mut [T]) {
        for i in (1..items.len()).rev() {
            items.swap(i, self.size(i + 1));
        }
    }

    /// So many different numbers: a row of small ones, edges, or any.
    pub fn numbers(&mut self, count: usize) -> Vec<u64> {
        let mut numbers = match self.below(3) {
            0 => (0..count as u64).collect(),
            1 => EDGES.to_vec(),
            _ => Vec::new(),
        };
        while numbers.len() < count {
            let number = self.next();
            numbers.push(number);
        }
        self.shuffle(&mut numbers);
        numbers.truncate(count);
        numbers
    }

    pub fn bytes(&mut self, count: usize) -> Vec<u8> {
        (0..count).map(|_| self.next() as u8).collect()
    }

    /// A few devices, many of which differ in one byte or have one half in common.
    pub fn devices(&mut self, count: usize) -> Vec<Device> {
        let base: Device = if self.percent(50) { [0xa0; 16] } else { self.bytes(16).try_into().expect("16 bytes") };
        let mut devices = vec![base, [0; 16], [0xff; 16]];
        for place in [0, 7, 8, 15] {
            let mut near = base;
            near[place] ^= 1 << self.below(8);
            devices.push(near);
        }
        let mut swapped = base;
        swapped[0] ^= 0x55;
        devices.push(swapped);
        swapped.rotate_left(8);
        devices.push(swapped);
        self.shuffle(&mut devices);
        devices.truncate(count);
        devices
    }
}

pub fn hex(bytes: &[u8]) -> String {
    if bytes.is_empty() {
        return "-".to_string();
    }
    bytes.iter().map(|byte| format!("{byte:02x}")).collect()
}

/// One raw damage: a bit turned, bytes cut off, put on, taken out or doubled.
pub fn damage(r: &mut Random, bytes: &mut Vec<u8>) {
    if bytes.is_empty() {
        bytes.push(0);
        return;
    }
    let at = r.size(bytes.len());
    match r.below(6) {
        0 | 1 => bytes[at] ^= 1 << r.below(8),
        2 => bytes.truncate(at),
        3 => {
            let more = 1 + r.size(8);
            bytes.extend(vec![if r.percent(50) { 0 } else { 0xee }; more]);
        }
        4 => {
            bytes.remove(at);
        }
        _ => bytes.insert(at, bytes[at]),
    }
}
