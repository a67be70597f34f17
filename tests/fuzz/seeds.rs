//! seeds FOLDER FILE..
//!
//! Writes inputs for the fuzzer to start from: the files given, and of each version sound files, a file damaged for
//! each check that it can fail, and cuts; chains to walk; files to write; lines; lists around the end of the table of
//! powers; recordings with starts, whole and in pieces; lines and starts for a year's table; and names that begin with
//! a volume's path, with a start to put in its place. The same bytes every time.

use compare::generate::bare::with_blocks;
use compare::generate::cuts::cuts;
use compare::generate::damage::{aims_of, damage};
use compare::generate::recordings::{any_case, spoil, Case};
use compare::generate::rooted;
use compare::generate::years;
use compare::generate::{sound_of, Counts, Sample};
use compare::random::Random;
use compare::reference::layout::{END, LAYOUTS};
use hivesaddle::raw::HS_READER_OUT;
use std::io;
use std::path::{Path, PathBuf};

/// A call number that stands for all of them, and one for each of the two lines.
const ALL: u8 = 255;
const CATALOGUE_READ: u8 = 13;
const CATALOGUE_WRITE: u8 = 14;
const HASH_POWERS: u8 = 17;
const HASH_SWAP_BYTES: u8 = 20;
const WALK: u8 = 21;
const WRITE_FILE: u8 = 22;
const REPLAY: u8 = 23;
const YEAR_TABLE: u8 = 24;
const FIND_PATH_FROM: u8 = 28;
const REPLAY_PIECES: u8 = 30;
/// Slots as the trace count says, or one fewer; above them the same for the places of a walk's order.
const EXACT: u8 = 0;
const FEWER: u8 = 3;
const ORDER_FEWER: u8 = FEWER << 4;
const ORDER_MORE: u8 = 4 << 4;
/// Bytes of the output for a file, one fewer and one more than it has; and odd last numbers in both of its tables.
const OUTPUT_FEWER: u8 = 3 << 4;
const OUTPUT_MORE: u8 = 4 << 4;
const ODD_NUMBERS: u8 = 3 << 5;
/// The recording as bytes, or the catalogue lines.
const AS_BYTES: u8 = 1 << 7;

/// The choices of a replay, whole or in pieces.
#[derive(Clone, Copy)]
struct Replay {
    call: u8,
    places: u8,
    i: u64,
    k: u64,
    form: u8,
}

struct Seeds {
    folder: PathBuf,
    count: usize,
}

impl Seeds {
    /// The choices as harness.c takes them, then the bytes.
    fn add(&mut self, call: u8, places: u8, i: u64, k: u64, bytes: &[u8]) -> io::Result<()> {
        let input = self.input(call, places, i, k, bytes);
        self.save(input)
    }

    fn input(&self, call: u8, places: u8, i: u64, k: u64, bytes: &[u8]) -> Vec<u8> {
        let out_length = HS_READER_OUT as u8 + self.count as u8 % 4;
        let mut input = vec![call, self.count as u8 % 32, out_length, places & 0x0F, 0, 0, 0, 0];
        input.extend(i.to_le_bytes());
        input.extend(k.to_le_bytes());
        input.extend((self.count as u32).to_le_bytes());
        input.extend([26 + self.count as u8 % 3, (places & 0xF0) | (self.count as u8 % 16)]);
        input.extend((self.count as u16 % 64).to_le_bytes());
        input.extend(bytes);
        input
    }

    fn save(&mut self, input: Vec<u8>) -> io::Result<()> {
        std::fs::write(self.folder.join(format!("seed-{:03}", self.count)), input)?;
        self.count += 1;
        Ok(())
    }

    fn versions(&mut self, random: &mut Random) -> io::Result<()> {
        for layout in &LAYOUTS {
            for (metrics, trace, volumes) in [(0, 0, 0), (1, 2, 1), (3, 5, 2), (5, 9, 3)] {
                let sample = sound_of(random, layout, Counts { metrics, trace, volumes });
                self.add(ALL, EXACT, 1, 1, &sample.bytes)?;
                let cut = *random.pick(&cuts(&sample));
                self.add(ALL, EXACT, 0, 0, &sample.bytes[..cut])?;
            }
            for number in aims_of(layout) {
                let mut sample: Sample =
                    sound_of(random, layout, Counts { metrics: 3, trace: 5, volumes: 2 });
                damage(random, &mut sample, number);
                let places = if number == 7 { FEWER } else { EXACT };
                self.add(ALL, places, 1, 1, &sample.bytes)?;
            }
        }
        Ok(())
    }

    /// Chains of each kind, with places for all of them, for one fewer and for one more.
    fn walks(&mut self) -> io::Result<()> {
        let lists: [&[u32]; 6] = [
            &[END],
            &[1, 2, 3, END],
            &[END, 0, 1, 2],
            &[3, END, END, 1],
            &[END, END, END],
            &[4, END, 1, END, 2, 3],
        ];
        for (list, blocks) in lists.iter().zip([1, 8, u32::MAX, u32::MAX - 1, 1 << 31, 7]) {
            let file = with_blocks(list, &vec![blocks; list.len()]);
            for places in [EXACT, ORDER_FEWER, ORDER_MORE] {
                self.add(WALK, places, 0, 0, &file)?;
            }
        }
        Ok(())
    }

    /// What files of the two versions say, with an output that fits, a byte fewer and one more, and names around the
    /// most units.
    fn writes(&mut self, random: &mut Random) -> io::Result<()> {
        for layout in LAYOUTS.iter().filter(|layout| layout.version < 26) {
            for (output, odd, units) in [
                (EXACT, 0, 30),
                (OUTPUT_FEWER, 0, 30),
                (OUTPUT_MORE, ODD_NUMBERS, 30),
                (EXACT, ODD_NUMBERS, 29),
                (OUTPUT_MORE, 0, 0),
                (EXACT, 0, 63),
            ] {
                let counts = Counts { metrics: 3, trace: 5, volumes: 2 };
                let sample = sound_of(random, layout, counts);
                let mut input = self.input(WRITE_FILE, EXACT, 0, units, &sample.bytes);
                input[1] |= odd;
                input[3] |= output;
                self.save(input)?;
            }
        }
        Ok(())
    }

    fn lines(&mut self) -> io::Result<()> {
        self.add(CATALOGUE_READ, EXACT, 0, 0, b"000094000000410000000111\n")?;
        self.add(CATALOGUE_READ, EXACT, 0, 0, b"FFFFFFDEADBEEF0000002A17\n")?;
        self.add(CATALOGUE_READ, EXACT, 0, 0, b"0000D400000041000000011A\n")?;
        self.add(CATALOGUE_READ, EXACT, 0, 0, b"00000094000000410000000111\n")?;
        self.add(CATALOGUE_READ, EXACT, 0, 0, b"04000000DEADBEEF0000002A1A\n")?;
        self.add(CATALOGUE_READ, EXACT, 0, 0, b"0000D400000041000000011E\n")?;
        self.add(CATALOGUE_READ, EXACT, 0, 0, b"000000D400000041000000011E\n")?;
        for (size, version) in [
            (148, 17),
            (156, 23),
            (212, 26),
            (212, 30),
            (67_108_864, 26),
            (67_108_865, 26),
            (16_777_216, 26),
            (147, 17),
        ] {
            self.add(CATALOGUE_WRITE, EXACT, 65 << 32 | size, version << 32 | 1, &[])?;
        }
        Ok(())
    }

    /// As many numbers as the table has powers, one less and one more; as many bytes, with a start swapped.
    fn powers(&mut self, random: &mut Random) -> io::Result<()> {
        for length in [0, 1, 1_023, 1_024, 1_025] {
            for call in HASH_POWERS..=HASH_SWAP_BYTES {
                let width = if call % 2 == 1 { 4 } else { 1 };
                self.add(
                    call,
                    EXACT,
                    46.min(length),
                    random.next(),
                    &random.bytes(width * length as usize),
                )?;
            }
        }
        // All but one kept, and 1,023 to 1,025 of more.
        for (length, p) in
            [(1_025, 1), (3_000, 1_977), (3_000, 1_976), (3_000, 1_975), (3_000, 3_001)]
        {
            self.add(HASH_SWAP_BYTES, EXACT, p, random.next(), &random.bytes(length))?;
        }
        Ok(())
    }

    /// As text and as bytes, with places for each start, one fewer and one more; and bad lines.
    fn replays(&mut self, random: &mut Random) -> io::Result<()> {
        for places in [EXACT, FEWER, 4, 5, ORDER_FEWER, ORDER_MORE] {
            for i in 0..4 {
                let case = any_case(random, 20, 12);
                let readings = case.readings.iter().flat_map(|reading| {
                    let time = reading.time.to_be_bytes().to_vec();
                    [time, vec![reading.board], reading.temperature.to_be_bytes().to_vec()].concat()
                });
                let whole = Replay { call: REPLAY, places, i, k: 0, form: 0 };
                let bytes: Vec<u8> = readings.collect();
                self.replay(Replay { form: AS_BYTES, ..whole }, bytes.clone(), &case)?;
                // The pieces; and i also says what is odd about them.
                let (i, k) = (i | random.next() << 2, random.next());
                let pieces = Replay { call: REPLAY_PIECES, i, k, ..whole };
                self.replay(Replay { form: AS_BYTES, ..pieces }, bytes, &case)?;
                let mut recording = case.recording();
                self.replay(whole, recording.clone(), &case)?;
                self.replay(pieces, recording.clone(), &case)?;
                spoil(random, &mut recording);
                self.replay(whole, recording.clone(), &case)?;
                self.replay(pieces, recording, &case)?;
            }
        }
        Ok(())
    }

    fn replay(&mut self, replay: Replay, mut bytes: Vec<u8>, case: &Case) -> io::Result<()> {
        let Replay { call, places, i, k, form } = replay;
        for start in &case.starts {
            bytes.extend(start.time.to_be_bytes());
            bytes.push(start.board);
        }
        let mut input = self.input(call, places, i, k, &bytes);
        input[1] |= form;
        input[30..32].copy_from_slice(&(9 * case.starts.len() as u16).to_le_bytes());
        self.save(input)
    }

    /// Files of every version, each with its start behind it.
    fn other_starts(&mut self, random: &mut Random) -> io::Result<()> {
        for layout in &LAYOUTS {
            for _ in 0..12 {
                let rooted::Rooted { mut bytes, volume, start } = rooted::any_of(random, layout);
                bytes.extend(&start);
                let mut input = self.input(FIND_PATH_FROM, EXACT, volume, 0, &bytes);
                input[30..32].copy_from_slice(&(start.len() as u16).to_le_bytes());
                self.save(input)?;
            }
        }
        Ok(())
    }

    /// Lines as text and as bytes, spoilt ones, and as many hashes as a table has and one more.
    fn years(&mut self, random: &mut Random) -> io::Result<()> {
        for places in [EXACT, FEWER, 4, 5, ORDER_FEWER, ORDER_MORE] {
            for more in [0, 1, 6, 7] {
                let case = years::any_case(random, 20);
                let mut lines = case.lines();
                self.year(places, more, 0, &lines, &case)?;
                spoil(random, &mut lines);
                self.year(places, more, 0, &lines, &case)?;
                self.year(places, more, AS_BYTES, &random.bytes(120), &case)?;
            }
        }
        // With 1,020 to 1,025 hashes of starts, behind a few lines that have some of them.
        for count in 1_020..=1_025 {
            for first in 0..2 {
                let case = years::any_case(random, 4);
                self.year(EXACT, 2 * count + first, AS_BYTES, &[0, 5, 0, 7, 6, 5, 0, 255], &case)?;
            }
        }
        Ok(())
    }

    fn year(
        &mut self,
        places: u8,
        i: u64,
        form: u8,
        lines: &[u8],
        case: &years::Case,
    ) -> io::Result<()> {
        let mut bytes = lines.to_vec();
        for (hash, answer) in case.hashes.iter().zip(case.answers.chunks(4)) {
            bytes.extend(&hash.to_le_bytes()[..2]);
            bytes.push(answer[0] as u8);
            bytes.extend(&answer[3].to_le_bytes()[..2]);
        }
        let mut input = self.input(YEAR_TABLE, places, i, 0, &bytes);
        input[1] |= form;
        input[30..32].copy_from_slice(&(5 * case.hashes.len() as u16).to_le_bytes());
        self.save(input)
    }
}

fn main() -> io::Result<()> {
    let arguments: Vec<String> = std::env::args().skip(1).collect();
    let (folder, files) = arguments.split_first().expect("seeds FOLDER FILE..");
    std::fs::create_dir_all(folder)?;
    let mut seeds = Seeds { folder: Path::new(folder).to_path_buf(), count: 0 };
    for file in files {
        seeds.add(ALL, EXACT, 2, 0, &std::fs::read(file)?)?;
    }
    seeds.versions(&mut Random::new(1))?;
    seeds.walks()?;
    seeds.writes(&mut Random::new(3))?;
    seeds.lines()?;
    seeds.powers(&mut Random::new(2))?;
    seeds.replays(&mut Random::new(4))?;
    seeds.years(&mut Random::new(5))?;
    seeds.other_starts(&mut Random::new(6))
}
