//! Readers after random histories of calls, held to the lookup rule: what a read names, and what is refused.
mod model;

use archthimble::{lookup, By, DataRuns, From, Place, Reader, Refusal, Span, Where};
use model::{find, Found, Random};

const CLUSTER: u64 = 512;
const MARK: u64 = 0xa5a5_a5a5_a5a5_a5a5;

fn is(refusal: Refusal, number: u64, values: &[i128]) {
    assert_eq!((refusal.number(), refusal.values()), (number, values));
}

/// The reader under test, and all that the rule needs to know of its history: the place.
struct Pair<'a> {
    list: &'a [u8],
    reader: Reader,
    place: u64,
    size: u64,
}

impl Pair<'_> {
    fn seek(&mut self, from: From, by: By) {
        let base = match from {
            From::Start => 0,
            From::Place => self.place,
            From::End => self.size,
        };
        let far = match by {
            By::Unsigned(n) => i128::from(n),
            By::Signed(n) => i128::from(n),
        };
        let before = self.reader;
        let answer = self.reader.seek_by(self.list, from, by);
        let Ok(target) = u64::try_from(i128::from(base) + far) else {
            is(answer.unwrap_err(), 20, &[]);
            return assert_eq!(self.reader, before);
        };
        if target == self.place {
            assert_eq!((answer, self.reader), (Ok(target), before));
            return;
        }
        let at = match find(self.list, CLUSTER, target) {
            Found::Refused(number, values) => {
                is(answer.unwrap_err(), number, &values);
                return assert_eq!(self.reader, before);
            }
            Found::Run(_, at) => at,
            Found::Over => None,
        };
        assert_eq!((answer, self.reader.data_position()), (Ok(target), Ok(at)));
        self.place = target;
    }

    /// What the rule says of a read: its spans, or the refusal where there is none.
    fn expected(&self, w: u64, room: usize) -> Result<Vec<Span>, (u64, Vec<i128>)> {
        let (mut spans, mut place, mut left) = (Vec::new(), self.place, w);
        while left > 0 && spans.len() < room && place < self.size {
            let (rest, at) = match find(self.list, CLUSTER, place) {
                Found::Run(rest, at) => (rest, at),
                Found::Refused(number, values) if spans.is_empty() => return Err((number, values)),
                _ => break,
            };
            let length = left.min(rest).min(self.size - place);
            spans.push(Span { place: at.map_or(Place::Hole, Place::Disk), length });
            (place, left) = (place + length, left - length);
        }
        Ok(spans)
    }

    fn read(&mut self, w: u64, words: usize) {
        let mut store = vec![MARK; words];
        let expected = self.expected(w, words / 3);
        let before = self.reader;
        let answer = self.reader.read(self.list, w, &mut store).map(|spans| (spans.bytes(), spans.collect::<Vec<_>>()));
        let used = match expected {
            Ok(spans) => {
                let bytes = spans.iter().map(|span| span.length).sum();
                self.place += bytes;
                let used = 3 * spans.len();
                assert_eq!(answer, Ok((bytes, spans)));
                used
            }
            Err((number, values)) => {
                is(answer.unwrap_err(), number, &values);
                assert_eq!(self.reader, before);
                0
            }
        };
        assert!(store[used..].iter().all(|word| *word == MARK));
    }

    fn step(&mut self, random: &mut Random) {
        let near = random.below(6000);
        match random.below(10) {
            0 => self.seek(From::Start, By::Unsigned(near)),
            1 => self.seek(From::Place, By::Signed(near as i64 - 3000)),
            2 => self.seek(From::End, By::Signed(near as i64 - 5000)),
            3 => self.seek([From::Start, From::Place, From::End][near as usize % 3], By::Unsigned(random.word())),
            4 => self.seek([From::Start, From::Place, From::End][near as usize % 3], By::Signed(random.word() as i64)),
            5 => self.read(u64::MAX, random.below(20) as usize),
            _ => self.read(random.below(3000), random.below(20) as usize),
        }
        assert_eq!((self.reader.place(), self.reader.size(), self.reader.cluster_size()), (self.place, self.size, CLUSTER));
    }
}

#[test]
fn ten_thousand_histories() {
    let mut random = Random(0x1234_5678_9abc_def1);
    let (mut opened, mut refused) = (0, 0);
    while opened < 10_000 {
        let list = random.list();
        let size = if random.below(8) == 0 { u64::MAX - random.below(2) } else { random.below(6000) };
        match (find(&list, CLUSTER, 0), Reader::open(&list, CLUSTER, size)) {
            (Found::Refused(number, values), answer) => {
                is(answer.unwrap_err(), number, &values);
                refused += 1;
            }
            (_, answer) => {
                let mut pair = Pair { list: &list, reader: answer.unwrap(), place: 0, size };
                (0..1 + random.below(20)).for_each(|_| pair.step(&mut random));
                opened += 1;
            }
        }
    }
    assert!(refused > 100, "too few lists were refused: {refused}");
}

#[test]
fn lookups_and_runs_by_the_same_rule() {
    let mut random = Random(7);
    for _ in 0..20_000 {
        let list = random.list();
        let offset = if random.below(8) == 0 { random.word() } else { random.below(8000) };
        match (find(&list, CLUSTER, offset), lookup(&list, CLUSTER, offset)) {
            (Found::Refused(number, values), answer) => is(answer.unwrap_err(), number, &values),
            (Found::Run(_, Some(at)), answer) => assert_eq!(answer, Ok(Where::Disk(at))),
            (Found::Run(_, None), answer) => assert_eq!(answer, Ok(Where::Hole)),
            (Found::Over, answer) => assert_eq!(answer, Ok(Where::NotCovered)),
        }
        let mut start = 0u64;
        for run in DataRuns::new(&list, CLUSTER) {
            match (find(&list, CLUSTER, start), run) {
                (Found::Refused(number, values), run) => is(run.unwrap_err(), number, &values),
                (found, run) => {
                    let run = run.unwrap();
                    let at = if let Place::Disk(at) = run.place { Some(at) } else { None };
                    assert_eq!(found, Found::Run(run.size, at));
                    let Some(next) = start.checked_add(run.size) else { break };
                    start = next;
                }
            }
        }
    }
}
