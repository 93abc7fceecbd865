//! Random lists: good ones, good ones with damage, and noise.
use crate::random::Random;

pub const CLUSTERS: [u32; 13] = [512, 1024, 2048, 4096, 8192, 16384, 32768, 65536, 131072, 262144, 524288, 1048576, 2097152];

/// Mostly 512; now and then one that the port refuses with 21.
pub fn cluster(random: &mut Random) -> u32 {
    if random.one_in(200) {
        return random.pick(&[1, 256, 511, 513, 768, 4_194_304, u32::MAX]);
    }
    if random.one_in(4) {
        random.pick(&CLUSTERS)
    } else {
        512
    }
}

/// A number's low bytes, as many as it needs by either reading or sometimes more.
fn bytes(random: &mut Random, number: i64, signed: bool) -> Vec<u8> {
    let all = number.to_le_bytes();
    let fits = |n: usize| {
        let unused = 64 - 8 * n as u32;
        if signed {
            number << unused >> unused == number
        } else {
            number as u64 >> (8 * n) == 0
        }
    };
    let least = (1..8).find(|n| fits(*n)).unwrap_or(8);
    let more = if random.one_in(8) { random.below(9 - least as u64) as usize } else { 0 };
    all[..least + more].to_vec()
}

fn count(random: &mut Random, cluster: u32) -> i64 {
    let limit = u64::MAX / cluster as u64;
    match random.below(24) {
        0 => limit as i64,
        1 => limit.wrapping_add(1) as i64,
        2 => (random.word() >> random.below(64)) as i64,
        3 => 0,
        _ => 1 + random.below(4) as i64,
    }
}

/// A delta: small most times, otherwise at a limit of LCN or place.
fn delta(random: &mut Random, lcn: i64, cluster: u32) -> i64 {
    let last = (u64::MAX / cluster as u64) as i64;
    match random.below(24) {
        0 => lcn.wrapping_neg(),
        1 => lcn.wrapping_neg().wrapping_sub(1),
        2 => last.wrapping_sub(lcn).wrapping_sub(random.below(6) as i64),
        3 => last.wrapping_add(1).wrapping_sub(lcn),
        4 => random.pick(&[i64::MAX, i64::MIN, i64::MIN + 1, -1, 0]),
        5 => random.word() as i64 >> random.below(64),
        _ => random.below(60) as i64 - 20,
    }
}

fn run(random: &mut Random, list: &mut Vec<u8>, lcn: &mut i64, cluster: u32) {
    let number = count(random, cluster);
    let count = bytes(random, number, false);
    let delta = if random.one_in(5) {
        vec![]
    } else {
        let delta = delta(random, *lcn, cluster);
        *lcn = lcn.wrapping_add(delta);
        bytes(random, delta, true)
    };
    list.push(count.len() as u8 | (delta.len() as u8) << 4);
    list.extend(count);
    list.extend(delta);
}

fn damage(random: &mut Random, list: &mut Vec<u8>) {
    let at = random.below(list.len() as u64 + 1) as usize;
    match random.below(4) {
        0 => list.truncate(at),
        1 => list.insert(at, random.word() as u8),
        2 => list.insert(at, random.pick(&[0x09, 0x90, 0x91, 0x00, 0x10, 0x08])),
        _ => {
            if let Some(b) = list.get_mut(at) {
                *b ^= 1 << random.below(8);
            }
        }
    }
}

/// Runs that are refused, by 13 to 19 in turn (17 and 19 unless the LCN is already high).
const TAILS: [&[u8]; 9] = [
    &[0x09],
    &[0x91, 0x01],
    &[0x21, 0x18],
    &[0x10],
    &[0x11, 0x00, 0x01],
    &[0x18, 255, 255, 255, 255, 255, 255, 255, 255],
    &[0x21, 0x01, 0x00, 0x80],
    &[0x81, 0x01, 0, 0, 0, 0, 0, 0, 0x80, 0],
    &[0x71, 0x09, 0xf0, 255, 255, 255, 255, 255, 0x7f],
];

pub fn list(random: &mut Random, cluster: u32) -> Vec<u8> {
    if random.one_in(12) {
        let length = random.below(24);
        return (0..length).map(|_| random.word() as u8).collect();
    }
    let mut list = Vec::new();
    let mut lcn = 0;
    let calm = random.one_in(2);
    for _ in 0..random.below(8) {
        if calm {
            calm_run(random, &mut list, &mut lcn)
        } else {
            run(random, &mut list, &mut lcn, cluster)
        }
    }
    if random.one_in(5) {
        list.extend(random.pick(&TAILS));
        return list;
    }
    if random.one_in(2) {
        list.push(0);
        (0..random.below(4)).for_each(|_| list.push(random.word() as u8));
    }
    if random.one_in(3) {
        damage(random, &mut list);
    }
    list
}

/// A run as a volume would have it: few clusters, an LCN above 0, or a hole.
fn calm_run(random: &mut Random, list: &mut Vec<u8>, lcn: &mut i64) {
    let clusters = 1 + random.below(4) as u8;
    if random.one_in(4) {
        list.extend([0x01, clusters]);
        return;
    }
    let delta = (random.below(100) as i64 - 40).max(1 - *lcn);
    *lcn += delta;
    let delta = bytes(random, delta, true);
    list.extend([0x01 | (delta.len() as u8) << 4, clusters]);
    list.extend(delta);
}
