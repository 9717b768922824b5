// References before walls through the archive, held to 02 (xii) told once more in plain Rust. First every list of up to two pairs
// in every round of up to five ids, all from three ids; then random ones, in which most ids repeat.   order [ROUNDS]
mod archive;
mod seed;
mod tally;

use archive::{OrderAnswer, Pair};
use seed::Random;
use tally::Tally;

const ROUNDS: usize = 200_000;

// "The reference occurs before its first occurrence", if the wall prism occurs.
fn kept(pair: &Pair, round: &[u32]) -> bool {
    let first = round.iter().position(|id| *id == pair.wall);
    first.map_or(true, |first| round[..first].contains(&pair.reference))
}

// Yes, "otherwise the place, counted from 0, of the first pair in the list for which this fails".
fn rule(pairs: &[Pair], round: &[u32]) -> OrderAnswer {
    match pairs.iter().position(|pair| !kept(pair, round)) {
        None => OrderAnswer { ok: 1, pair: 0 },
        Some(place) => OrderAnswer { ok: 0, pair: place as u64 },
    }
}

#[derive(Default)]
struct Run {
    tally: Tally,
    calls: u64,
    // Answers: yes, the first pair, a later one.
    answers: [u64; 3],
}

impl Run {
    fn ask(&mut self, pairs: &[Pair], round: &[u32]) -> OrderAnswer {
        self.calls += 1;
        archive::references_first(pairs, round)
    }

    fn hold(&mut self, pairs: &[Pair], round: &[u32]) -> OrderAnswer {
        let answer = self.ask(pairs, round);
        self.tally.rule(answer, rule(pairs, round), || format!("{pairs:?} in {round:?}"));
        self.answers[if answer.ok == 1 { 0 } else { 1 + usize::from(answer.pair > 0) }] += 1;
        answer
    }

    // Yes for the list exactly when yes for each pair alone.
    fn alone(&mut self, pairs: &[Pair], round: &[u32], answer: OrderAnswer) {
        let each = pairs.iter().fold(true, |each, pair| (self.ask(&[*pair], round).ok == 1) & each);
        self.tally.rule(answer.ok == 1, each, || format!("{pairs:?} one by one in {round:?}"));
    }

    // Once the wall prism has occurred, what follows changes nothing for its pair.
    fn longer(&mut self, pairs: &[Pair], round: &[u32], more: &[u32]) {
        let both = [round, more].concat();
        for pair in pairs.iter().filter(|pair| round.contains(&pair.wall)) {
            let (shorter, longer) = (self.ask(&[*pair], round), self.ask(&[*pair], &both));
            self.tally.rule(longer, shorter, || format!("{pair:?} in {round:?} and then {more:?}"));
        }
    }

    // Every list of up to two pairs in every round of up to five ids.
    fn exhaust(&mut self, ids: &[u32]) -> u64 {
        let pairs: Vec<Pair> =
            lists(ids, 2).into_iter().filter(|l| l.len() == 2).map(|l| Pair { reference: l[0], wall: l[1] }).collect();
        let (pairs, rounds) = (lists(&pairs, 2), lists(ids, 5));
        for round in &rounds {
            for pairs in &pairs {
                self.hold(pairs, round);
            }
        }
        (pairs.len() * rounds.len()) as u64
    }

    fn random(&mut self, random: &mut Random) {
        let ids: Vec<u32> =
            (0..2 + random.below(12)).map(|i| if random.once_in(4) { random.word() } else { i as u32 }).collect();
        let most = random.pick(&[4, 12, 40, 600]);
        let list = |random: &mut Random, most: usize| -> Vec<u32> {
            (0..random.below(most + 1)).map(|_| random.pick(&ids)).collect()
        };
        let round = list(random, most);
        let more = list(random, 6);
        let count = random.below(8);
        let pairs: Vec<Pair> =
            (0..count).map(|_| Pair { reference: random.pick(&ids), wall: random.pick(&ids) }).collect();
        let answer = self.hold(&pairs, &round);
        self.alone(&pairs, &round, answer);
        self.longer(&pairs, &round, &more);
    }
}

// Every list of up to `most` of these.
fn lists<T: Copy>(of: &[T], most: usize) -> Vec<Vec<T>> {
    let mut all = vec![Vec::new()];
    let mut longest = all.clone();
    for _ in 0..most {
        longest = longest.iter().flat_map(|list| of.iter().map(move |x| [&list[..], &[*x]].concat())).collect();
        all.extend(longest.iter().cloned());
    }
    all
}

fn main() {
    let rounds = std::env::args().nth(1).map_or(ROUNDS, |text| text.parse().expect("a number of rounds"));
    let mut random = Random::new();
    println!("order: seed {}", random.seed);
    let mut run = Run::default();
    let all = run.exhaust(&[0, 1, u32::MAX]);
    (0..rounds).for_each(|_| run.random(&mut random));
    let [yes, first, later] = run.answers;
    println!("order: all {all} small cases and {rounds} random rounds: {yes} times yes, {first} times pair 0, {later} times a later pair");
    println!(
        "order: {} calls, {} answers beside 02's rule: {} different",
        run.calls, run.tally.rule, run.tally.different
    );
    std::process::exit(i32::from(run.tally.different > 0));
}
