//! Any numbers and any bytes: each call answers or refuses under a code with a name, and a refusal writes nothing. What
//! is built can be decoded, written and read.

use sheet::{Code, Direction, Quadrant, Refusal, Side, NODE_WORDS, POND_WORDS};

/// Splitmix64.
struct Dice(u64);

impl Dice {
    fn number(&mut self) -> u64 {
        self.0 = self.0.wrapping_add(0x9e37_79b9_7f4a_7c15);
        let mut z = self.0;
        z = (z ^ (z >> 30)).wrapping_mul(0xbf58_476d_1ce4_e5b9);
        z = (z ^ (z >> 27)).wrapping_mul(0x94d0_49bb_1331_11eb);
        z ^ (z >> 31)
    }

    fn below(&mut self, bound: usize) -> usize {
        (self.number() % bound as u64) as usize
    }

    /// A number below the bound or, one time in eight, any number.
    fn word(&mut self, bound: usize) -> u32 {
        if self.below(8) == 0 {
            self.number() as u32
        } else {
            self.below(bound) as u32
        }
    }

    fn words(&mut self, length: usize, bound: usize) -> Vec<u32> {
        (0..length).map(|_| self.word(bound)).collect()
    }

    fn bytes(&mut self, length: usize, bound: usize) -> Vec<u8> {
        (0..length).map(|_| self.below(bound) as u8).collect()
    }

    /// Any bits, or a number that is in range.
    fn ground(&mut self) -> f64 {
        if self.below(2) == 0 {
            f64::from_bits(self.number())
        } else {
            self.below(16000) as f64 + 1.0
        }
    }
}

#[derive(Default)]
struct Seen {
    answers: u32,
    refusals: u32,
}

impl Seen {
    /// Counts a result; the slice that was lent for it must be as it was if it is a refusal.
    fn judge<E: PartialEq, T>(&mut self, result: Result<T, Refusal>, old: &[E], new: &[E]) {
        match result {
            Ok(_) => self.answers += 1,
            Err(refusal) => {
                assert!(!matches!(refusal.code, Code::Other(_)), "{refusal}");
                assert!(old == new, "a refusal has written: {refusal}");
                self.refusals += 1;
            }
        }
    }
}

/// A table: of a picture, with or without a wrong word or a wrong length, or of any words.
fn table(dice: &mut Dice, level: u32, raster: &[u8]) -> Vec<u32> {
    let mut table = sheet::build_vec(level, raster).unwrap_or_default();
    let length = table.len();
    match dice.below(5) {
        0 if length > 0 => table[dice.below(length)] = dice.word(length),
        1 => table.truncate(dice.below(length + 1)),
        2 => {
            let length = dice.below(60);
            table = dice.words(length, 12);
        }
        _ => (),
    }
    table
}

/// A file: of a table, with or without a wrong byte or a wrong length, or of any bytes.
fn file(dice: &mut Dice, level: u32, table: &[u32]) -> Vec<u8> {
    let mut file = vec![0; 5 + table.len() / 2];
    if sheet::write(level, table, &mut file).is_err() {
        let length = dice.below(40);
        return dice.bytes(length, 256);
    }
    match dice.below(3) {
        0 => {
            let place = dice.below(file.len());
            file[place] = dice.below(4) as u8;
        }
        1 => file.truncate(dice.below(file.len() + 1)),
        _ => (),
    }
    file
}

#[test]
fn every_call() {
    let mut dice = Dice(1);
    let mut seen: [Seen; 11] = Default::default();
    for _ in 0..4000 {
        let level = dice.below(4) as u32;
        let pixels = (1 << (2 * level)) - usize::from(dice.below(8) == 0);
        let kinds = 2 + usize::from(dice.below(8) == 0);
        let raster = dice.bytes(pixels, kinds);
        let table = table(&mut dice, level, &raster);
        let file = file(&mut dice, level, &table);
        let nodes = table.len() / NODE_WORDS;
        // One time in eight another level is said, and one time in eight a slice has another length.
        let level = if dice.below(8) == 0 { dice.word(9) } else { level };
        let short = usize::from(dice.below(8) == 0);
        let node = dice.word(nodes + 1);
        let asked = [dice.word(9), dice.word(5), dice.word(5)];

        seen[0].judge(sheet::check(level, &table), &[0], &[0]);
        let old = dice.words(512, 9);
        let room = dice.below(old.len());
        let mut new = old.clone();
        seen[1].judge(sheet::build(level, &raster, &mut new[..room]), &old, &new);
        let old = dice.bytes(raster.len(), 256);
        let mut new = old.clone();
        seen[2].judge(sheet::decode(level, &table, &mut new), &old, &new);
        seen[3].judge(sheet::neighbour(level, &table, node, Direction(asked[0])), &[0], &[0]);
        seen[4].judge(sheet::corner_leaf(level, &table, node, Side(asked[1]), Quadrant(asked[2])), &[0], &[0]);
        seen[5].judge(sheet::diagonal_leaf(level, &table, node, Quadrant(asked[2])), &[0], &[0]);
        let old = dice.words(nodes + short, 9);
        let mut new = old.clone();
        seen[6].judge(sheet::distance(level, &table, &mut new), &old, &new);
        let old = dice.words(nodes + short + nodes * POND_WORDS, 9);
        let mut new = old.clone();
        let (numbers, register) = new.split_at_mut(nodes + short);
        let room = dice.below(register.len() + 1);
        seen[7].judge(sheet::ponds(level, &table, numbers, &mut register[..room]), &old, &new);
        let old = dice.words(512, 9);
        let room = dice.below(old.len());
        let mut new = old.clone();
        seen[8].judge(sheet::read(&file, &mut new[..room]), &old, &new);
        let old = dice.bytes(261, 256);
        let room = dice.below(old.len());
        let mut new = old.clone();
        seen[9].judge(sheet::write(level, &table, &mut new[..room]), &old, &new);
        let (east, north, step) = (dice.ground(), dice.ground(), dice.ground());
        seen[10].judge(sheet::centre(level, &table, node, east, north, step), &[0], &[0]);
    }
    for (call, seen) in seen.iter().enumerate() {
        assert!(seen.answers > 100 && seen.refusals > 100, "call {call}: {}, {}", seen.answers, seen.refusals);
    }
}

#[test]
fn there_and_back() {
    let mut dice = Dice(2);
    for round in 0..400 {
        let level = round % 8;
        let raster = dice.bytes(1 << (2 * level), 2);
        let table = sheet::build_vec(level, &raster).unwrap();
        assert_eq!(sheet::check(level, &table), Ok(table.len() / NODE_WORDS));
        let mut decoded = vec![7; raster.len()];
        assert_eq!(sheet::decode(level, &table, &mut decoded), Ok(()));
        assert!(decoded == raster);
        let mut file = vec![7; 5 + 3 * (table.len() / NODE_WORDS)];
        assert_eq!(sheet::write(level, &table, &mut file), Ok(file.len()));
        assert!(sheet::read_vec(&file) == Ok((level, table)));
    }
}
