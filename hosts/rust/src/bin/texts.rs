//! Runs the program `statement` on random inputs, each through a pipe, and
//! compares every byte that it prints with the text worked out here.
//!
//! `texts PROGRAM [SEED [COUNT]]`. The inputs are images and pairs of images:
//! of histories, at the limits, and spoiled; images of versions 1 and 2; and
//! other wrong lengths.

use std::collections::{BTreeMap, HashSet, VecDeque};
use std::io::{self, ErrorKind, Read, Write};
use std::process::{exit, Child, ChildStdin, Command, ExitStatus, Stdio};
use std::thread::sleep;
use std::time::Duration;

use val_host::fields::Fields;
use val_host::generate::{self, Care};
use val_host::model::v3 as model;
use val_host::random::Random;
use val_host::text::text;
use val_host::{GROUPS, IMAGE_SIZE, IMAGE_SIZE_1, IMAGE_SIZE_2, USERS};

const SEED: u64 = 1;
const COUNT: u64 = 4000;
/// How many runs of the program there may be at a time.
const AT_ONCE: usize = 8;

/// Longer than two images, and short enough for a pipe to hold it.
const LONGEST: usize = 60_000;

// ---- what came up -----------------------------------------------------------

const ONE: usize = 0;
const TWO: usize = 1;
const OF_1: usize = 2;
const OF_2: usize = 3;
const OTHER: usize = 4;
const SORTS: [(&str, &[u32]); 5] = [
    ("one image", &[0, 2, 3, 4, 5]),
    ("two images", &[0, 2, 3, 4, 5, 42, 43, 44, 45, 30, 31]),
    ("version 1", &[1]),
    ("version 2", &[1]),
    ("other length", &[1]),
];

const TWO_IMAGES: usize = 2 * IMAGE_SIZE;

/// One image of this length, two, or one and one of version 3.
fn is_old(input: &[u8], size: usize) -> bool {
    [size, 2 * size, size + IMAGE_SIZE].contains(&input.len())
}

fn sort_of(input: &[u8]) -> usize {
    match input.len() {
        IMAGE_SIZE => ONE,
        TWO_IMAGES => TWO,
        _ if is_old(input, IMAGE_SIZE_1) => OF_1,
        _ if is_old(input, IMAGE_SIZE_2) => OF_2,
        _ => OTHER,
    }
}

/// The number that a text refuses with, 0 for a statement.
fn refusal(text: &str) -> u32 {
    text.strip_prefix("refused ").map_or(0, |number| number.trim_end().parse().unwrap())
}

/// Of an input that gives a statement.
fn crews_by_small_shares(input: &[u8]) -> usize {
    let (own, other) = input.split_at(IMAGE_SIZE);
    let mut image = own.to_vec();
    if !other.is_empty() {
        assert!(model::merge(&mut image, other).is_ok());
    }
    (0..GROUPS).filter(|&group| Fields::of(&image).needs_small_shares(group)).count()
}

#[derive(Default)]
struct Seen {
    answers: [BTreeMap<u32, u64>; SORTS.len()],
    different: HashSet<Vec<u8>>,
    crews: usize,
    users: usize,
    by_small_shares: usize,
    longest: usize,
}

impl Seen {
    fn count(&mut self, input: &[u8], text: Vec<u8>) {
        let words = std::str::from_utf8(&text).unwrap();
        let answer = refusal(words);
        *self.answers[sort_of(input)].entry(answer).or_default() += 1;
        if answer == 0 {
            self.by_small_shares += crews_by_small_shares(input);
        }
        self.crews += words.lines().filter(|line| line.starts_with("crew")).count();
        self.users += words.lines().filter(|line| line.starts_with("user")).count();
        self.longest = self.longest.max(text.len());
        self.different.insert(text);
    }

    fn report(&self) {
        for ((name, known), answers) in SORTS.iter().zip(&self.answers) {
            print!("{name:<12}  texts: {}", answers.values().sum::<u64>());
            for (answer, count) in answers {
                match answer {
                    0 => print!("  statements: {count}"),
                    _ => print!("  refused {answer}: {count}"),
                }
            }
            println!();
            for answer in known.iter().filter(|answer| !answers.contains_key(answer)) {
                println!("{name}: {answer} never came up");
            }
        }
        println!("{} different texts, the longest of {} bytes", self.different.len(), self.longest);
        println!("{} crews and {} users in all", self.crews, self.users);
        println!("{} crews with a cost valid by small shares alone", self.by_small_shares);
    }
}

// ---- the program --------------------------------------------------------------

/// The program at work on an input. A pipe holds the whole of either, so that
/// several can run beside each other and none waits for its turn to be read.
struct Run {
    child: Child,
    text: u64,
    input: Vec<u8>,
}

impl Run {
    /// Hands over the input, in two pieces where there is a cut.
    fn start(program: &str, text: u64, input: Vec<u8>, cut: Option<usize>) -> io::Result<Self> {
        let mut child =
            Command::new(program).stdin(Stdio::piped()).stdout(Stdio::piped()).spawn()?;
        let mut stdin = child.stdin.take().unwrap();
        let (first, second) = input.split_at(cut.unwrap_or(input.len()));
        give(&mut stdin, first)?;
        if cut.is_some() {
            sleep(Duration::from_millis(3));
            give(&mut stdin, second)?;
        }
        Ok(Run { child, text, input })
    }

    /// What it printed, and whether it ended well.
    fn end(&mut self) -> io::Result<(Vec<u8>, ExitStatus)> {
        let mut text = Vec::new();
        self.child.stdout.take().unwrap().read_to_end(&mut text)?;
        Ok((text, self.child.wait()?))
    }
}

/// A program may end before it has read all.
fn give(to: &mut ChildStdin, bytes: &[u8]) -> io::Result<()> {
    match to.write_all(bytes) {
        Err(error) if error.kind() == ErrorKind::BrokenPipe => Ok(()),
        done => done,
    }
}

// ---- the inputs -----------------------------------------------------------------

struct Comparison {
    program: String,
    seed: u64,
    random: Random,
    limit: u64,
    texts: u64,
    running: VecDeque<Run>,
    seen: Seen,
}

impl Comparison {
    fn done(&self) -> bool {
        self.texts >= self.limit
    }

    fn differ(&self, text: u64, what: &str) -> ! {
        eprintln!("seed {} text {text}: {what}", self.seed);
        exit(1)
    }

    fn compare(&mut self, input: &[u8]) {
        if self.done() {
            return;
        }
        if self.running.len() == AT_ONCE {
            self.take();
        }
        self.texts += 1;
        let cut = self.random.chance(3).then(|| self.random.below(input.len() + 1));
        match Run::start(&self.program, self.texts, input.to_vec(), cut) {
            Ok(run) => self.running.push_back(run),
            Err(error) => self.differ(self.texts, &format!("{}: {error}", self.program)),
        }
    }

    /// The text of the run that was started first.
    fn take(&mut self) {
        let Some(mut run) = self.running.pop_front() else {
            return;
        };
        let expected = text(&run.input);
        match run.end() {
            Err(error) => self.differ(run.text, &error.to_string()),
            Ok((_, status)) if !status.success() => self.differ(run.text, &status.to_string()),
            Ok((text, _)) if text != expected => self.differ(
                run.text,
                &format!(
                    "for {} bytes it printed\n{}and not\n{}",
                    run.input.len(),
                    String::from_utf8_lossy(&text),
                    String::from_utf8_lossy(&expected)
                ),
            ),
            Ok(_) => self.seen.count(&run.input, expected),
        }
    }

    fn pair(&mut self, own: &[u8], other: &[u8]) {
        self.compare(&[own, other].concat());
    }

    /// A fault that leaves the length, so that what is behind it stays in place.
    fn spoiled(&mut self, image: &[u8]) -> Vec<u8> {
        loop {
            let spoiled = generate::spoiled_image(&mut self.random, image);
            if spoiled.len() == IMAGE_SIZE {
                return spoiled;
            }
        }
    }

    /// Inputs made of a sound image and another of the same homes.
    fn around(&mut self, own: &[u8], other: &[u8]) {
        let relative = generate::relative(&mut self.random, own);
        let (bad_own, bad_other) = (self.spoiled(own), self.spoiled(other));
        self.compare(own);
        self.pair(own, other);
        self.pair(own, &relative);
        self.compare(&bad_own);
        match self.random.below(3) {
            0 => self.pair(&bad_own, other),
            1 => self.pair(own, &bad_other),
            _ => self.pair(&bad_own, &bad_other),
        }
        // One image of an older version, two, and one of each.
        let size = self.random.pick(&[IMAGE_SIZE_1, IMAGE_SIZE_2]);
        let (old_own, old_other) = (generate::lowered(own, size), generate::lowered(other, size));
        match self.random.below(4) {
            0 => self.compare(&old_own),
            1 => self.pair(&old_own, &old_other),
            2 => self.pair(own, &old_other),
            _ => self.pair(&old_own, other),
        }
        let mut input = [own, other].concat();
        let any = self.random.below(LONGEST);
        let (one, two) = (IMAGE_SIZE, TWO_IMAGES);
        let near = [0, 1, one - 1, one + 1, two - 1, two + 1, any];
        input.resize(self.random.pick(&near), 0);
        self.compare(&input);
    }

    /// Eight replicas from empty images on.
    fn history(&mut self) {
        let homes = generate::homes(&mut self.random);
        let mut vans = vec![vec![0; IMAGE_SIZE]; USERS];
        for (van, image) in vans.iter_mut().enumerate() {
            assert!(model::empty(image, van as u64, &homes).is_ok());
        }
        for turn in 1..=400 {
            // A replica that somebody lives on, and another to hear from.
            let van = usize::from(self.random.pick(&homes));
            let from = usize::from(self.random.pick(&homes));
            if self.random.chance(25) {
                let other = vans[from].clone();
                assert!(model::merge(&mut vans[van], &other).is_ok());
            } else {
                let kind = self.random.pick(&[1, 2, 2, 3, 4, 4, 5, 5, 6, 7, 8, 9, 9, 9, 10]);
                let random = &mut self.random;
                let action = generate::likely_action(random, &vans[van], kind, Care::Much);
                model::act(&mut vans[van], &action);
            }
            if turn % 80 == 0 {
                let (own, other) = (vans[van].clone(), vans[from].clone());
                self.around(&own, &other);
            }
        }
    }

    /// Sound images that no history need have led to.
    fn limits(&mut self) {
        let own = generate::sound_image(&mut self.random, IMAGE_SIZE);
        let other = generate::relative(&mut self.random, &own);
        self.around(&own, &other);
    }

    fn run(&mut self) {
        while !self.done() {
            self.history();
            for _ in 0..5 {
                self.limits();
            }
        }
        while !self.running.is_empty() {
            self.take();
        }
    }
}

fn main() {
    let arguments: Vec<String> = std::env::args().skip(1).collect();
    let number = |at: usize, default: u64| match arguments.get(at).map(|word| word.parse()) {
        None => default,
        Some(Ok(number)) => number,
        Some(Err(_)) => usage(),
    };
    if !(1..=3).contains(&arguments.len()) {
        usage();
    }
    let (seed, limit) = (number(1, SEED), number(2, COUNT));
    let mut comparison = Comparison {
        program: arguments[0].clone(),
        seed,
        random: Random::new(seed),
        limit,
        texts: 0,
        running: VecDeque::new(),
        seen: Seen::default(),
    };
    comparison.run();
    println!("seed {seed}, {} texts compared, all equal", comparison.texts);
    comparison.seen.report();
}

fn usage() -> ! {
    eprintln!("usage: texts PROGRAM [SEED [COUNT]]");
    exit(2)
}
