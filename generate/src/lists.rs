//! Counts of cards and lists of (T, C), for plans of one-kind projects.

use crate::Generator;

/// "a list of (T, C)" as bytes: four a kind, high bytes first.
pub fn list_bytes(list: &[(u16, u16)]) -> Vec<u8> {
    let four = |&(t, c): &(u16, u16)| [t.to_be_bytes(), c.to_be_bytes()].concat();
    list.iter().flat_map(four).collect()
}

/// Cards and a list: each refusal at each place it can have, each boundary, all small ones.
pub fn fixed_lists() -> Vec<(u64, Vec<u8>)> {
    let mut lists = Vec::new();
    let mut push = |m: u64, list: &[(u16, u16)]| lists.push((m, list_bytes(list)));

    // 17 and 18: every count of kinds beside every count of cards, some good only if no more than the low bits are looked at.
    let cards = [
        0,
        1,
        2,
        7,
        8,
        9,
        15,
        255,
        256,
        257,
        1 << 16,
        1 << 32,
        (1 << 32) + 1,
        u64::MAX,
    ];
    for m in cards {
        for n in 0..=20 {
            push(m, &vec![(8, 1); n]);
            // And with every kind out of range as well.
            push(m, &vec![(0, 0); n]);
        }
    }
    push(8, &[(8, 1); 256]);
    push(8, &[(8, 1); 257]);

    // 6 at each kind: each field at each end and beyond it, alone, and with a later kind wrong too.
    for n in 1..=8 {
        for place in 0..n {
            for kind in [
                (0, 0),
                (0, 1),
                (1, 0),
                (1, 2),
                (64, 65),
                (4095, 4096),
                (4096, 1),
                (4096, 4096),
                (65535, 65535),
                (256, 257),
            ] {
                // Beside it 19 or 7 would be told.
                for other in [(8, 1), (4095, 4095), (64, 64)] {
                    let mut list = vec![other; n];
                    list[place] = kind;
                    push(1, &list);
                    list[n - 1] = kind;
                    push(8, &list);
                }
            }
        }
    }

    // All separations equal, to both sides of 64: from a cell to all, and exactly as many as there are cards.
    for n in 1..=8u16 {
        for t in [1, 2, 3, 7, 32, 63, 64, 65, 66, 127, 128, 4094, 4095] {
            for c in [1, t / 2, t - 1, t] {
                if c > 0 {
                    for m in [1, 2, u64::from(n).max(2) - 1, u64::from(n)] {
                        push(m, &vec![(t, c); usize::from(n)]);
                    }
                }
            }
        }
    }

    // Divisors 1, 2, 32, 63, 64, 65 and 128 of unlike separations, in either order, with a third that has less in common.
    for d in [1u16, 2, 32, 63, 64, 65, 128] {
        for (a, b) in [(1, 2), (2, 3), (3, 2), (5, 7), (9, 4), (31, 30)] {
            for c in [1, d, d + 1] {
                let two = [(d * a, c.min(d * a)), (d * b, c.min(d * b))];
                push(8, &two);
                push(1, &two);
                for third in [d, d * a * 2 % 4095 + 1, 4095] {
                    push(2, &[two[0], two[1], (third, 1)]);
                    push(2, &[(third, 1), two[0], two[1]]);
                }
            }
        }
    }
    // The least separation is the divisor, and is not.
    for list in [
        [(6, 1), (12, 1), (18, 1)],
        [(12, 1), (18, 1), (6, 1)],
        [(6, 1), (9, 1), (15, 1)],
        [(4, 1), (6, 1), (9, 1)],
    ] {
        push(8, &list);
        push(1, &list);
    }

    // Sums of C/T that are exactly m, one part less and one more.
    for m in 1..=8u64 {
        let n = m as u16;
        for more in [0i32, 1, -1] {
            let last = |t: u16, c: u16| (t, (i32::from(c) + more).clamp(1, i32::from(t)) as u16);
            if n < 8 {
                // m kinds of 3/4 and so many of the rest as are left.
                let mut list = vec![(4, 3); usize::from(n)];
                list.push(last(64, 16 * n.min(4)));
                push(m, &list);
                let mut list = vec![(12, 12); usize::from(n) - 1];
                list.extend([(12, 5), last(24, 14)]);
                push(m, &list);
            }
            let mut list = vec![(64, 64); usize::from(n)];
            list[0] = last(64, 64);
            push(m, &list);
            // One cell more than there are, where it is rounded up.
            push(m, &[list, vec![(4032, 1)]].concat());
        }
    }

    // Every list of one or two kinds with T at most 6, and of three with T at most 3, on one card and on two.
    let kinds = |most: u16| (1..=most).flat_map(|t| (1..=t).map(move |c| (t, c)));
    for m in [1, 2] {
        for first in kinds(6) {
            push(m, &[first]);
            for second in kinds(6) {
                push(m, &[first, second]);
            }
        }
        for first in kinds(3) {
            for second in kinds(3) {
                for third in kinds(3) {
                    push(m, &[first, second, third]);
                }
            }
        }
    }

    // Bytes that are no list: every length, of bytes that would be kinds.
    for count in 0..=40 {
        let bytes = list_bytes(&[(8, 1); 10]);
        lists.push((8, bytes[..count].to_vec()));
        lists.push((9, bytes[..count].to_vec()));
    }
    lists
}

impl Generator {
    /// Cards and a list: mostly built, at the edge of 7, with a field nudged out of range, or of any bytes.
    pub fn cards_and_list(&mut self) -> (u64, Vec<u8>) {
        let m = match self.below(16) {
            0 => self.one_of(&[0, 9, 255, 256, 1 << 16, 1 << 32, u64::MAX, self.seed]),
            // Would be in range if only its low bits were looked at.
            1 => self.between(1, 8) + self.one_of(&[1 << 3, 1 << 8, 1 << 16, 1 << 32]),
            _ => self.between(1, 8),
        };
        if self.one_in(16) {
            let count = self.below(44);
            return (m, self.arbitrary_bytes(count));
        }
        let n = match self.below(16) {
            0 => self.between(9, 20),
            1 => 0,
            _ => self.towards_ends(1, 8),
        };
        // Multiples of one number, so that the divisor is not always 1.
        let d = match self.below(4) {
            0 => self.one_of(&[1, 2, 63, 64, 65, 128]),
            _ => self.between(1, 64),
        };
        let share = self.between(1, 2 * n.max(1));
        let mut list = Vec::new();
        for _ in 0..n {
            let t = d * self.between(1, (4095 / d).min(12));
            let c = match self.below(4) {
                // Whole cells of d.
                0 => t / d * self.between(1, d),
                1 => self.between(1, t),
                _ => (m.min(8) * t / share).clamp(1, t),
            };
            list.push((t as u16, c as u16));
        }
        if let (true, Some(kind)) = (self.one_in(6), list.last_mut()) {
            *kind = match self.below(5) {
                0 => (kind.0, kind.0 + 1),
                1 => (kind.0, 0),
                2 => (4096, kind.1),
                3 => (kind.0 + 1, kind.1),
                _ => (self.number() as u16, self.number() as u16),
            };
            let place = self.below(n) as usize;
            let last = list.len() - 1;
            list.swap(place, last);
        }
        let mut bytes = list_bytes(&list);
        if self.one_in(24) {
            bytes.truncate(self.below(bytes.len() as u64) as usize);
        }
        (m, bytes)
    }
}
