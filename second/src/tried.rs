//! What is sent of one trace by plain greedy, by PG with every beta that makes a difference, and by the plan.

use crate::fewer;
use crate::one;

/// The value that each sends.
pub struct Tried {
    pub greedy: u64,
    /// num, den and the value, by rising beta.
    pub pg: Vec<(u64, u64, u64)>,
    pub plan: u64,
}

/// Nothing where the words are not understood or the trace is refused.
pub fn run(room: &str, slots: &str, values: &str) -> Option<Tried> {
    let sends = |call: &str, parameters: &str| {
        let said = one::run(&[call, room, parameters, slots, values])?;
        said.lines().nth(1)?.split(' ').nth(3)?.parse::<u64>().ok()
    };
    let mut pg = Vec::new();
    for (num, den) in betas(&one::numbers(values)?) {
        pg.push((num, den, sends("pg", &format!("{num},{den}"))?));
    }
    Some(Tried {
        greedy: sends("greedy", "-")?,
        pg,
        plan: sends("plan", "-")?,
    })
}

/// One beta for each way in which PG can decide on these values, rising. PG asks whether value(p) x num is at most
/// value(arrival) x den, which is whether beta is at most value(arrival) / value(p). So all betas above one such
/// quotient and up to the next decide alike. The quotients above 1 stand for them, and a beta above all quotients.
fn betas(values: &[u64]) -> Vec<(u64, u64)> {
    let mut all = Vec::new();
    for w in values {
        for v in values.iter().filter(|v| *v < w) {
            all.push((*w, *v));
        }
    }
    all.sort_by(|(w, v), (x, u)| (w * u).cmp(&(x * v)));
    all.dedup_by(|(w, v), (x, u)| *w * *u == *x * *v);
    let (most, of) = all.last().copied().unwrap_or((1, 1));
    if most / of < crate::rules::MAX_BETA {
        all.push((most / of + 1, 1));
    }
    all
}

/// How many small traces of fewer than so many packets there are, as `fewer` has them, and on how many of them the
/// plan sends more than plain greedy and more than PG with any beta.
pub fn count(packets: usize) -> Option<(u64, u64)> {
    let (mut traces, mut beaten) = (0, 0);
    for words in (0..packets).flat_map(|n| fewer::all_words("plan", n)) {
        let [_, room, _, slots, values] = &words[..] else {
            return None;
        };
        let tried = run(room, slots, values)?;
        let best = tried.pg.iter().map(|pg| pg.2).fold(tried.greedy, u64::max);
        traces += 1;
        beaten += u64::from(best < tried.plan);
    }
    Some((traces, beaten))
}
