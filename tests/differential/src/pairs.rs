//! Pairs of sheets that differ in secret entries of some owners only. On sheets of form 1 all
//! secrets are those of the one high execution.

use crate::compare::{compare, Case, Difference};
use crate::part::Part;
use crate::sheets::numbers;
use reference::generate::{memory_length, secret_pair_by, Rng};
use reference::model::{run_by, CallRule, Followed};
use reference::{in_column_of, read, Form, Job, Owner};

/// What two runs of a pair have in common, and in what they differ.
pub struct Pair {
    pub returned: u32,
    /// The owners in whose columns their outputs differ.
    pub differ: Vec<Owner>,
    /// The owners whose executions have different counts of clamped results, which no answer may
    /// tell.
    pub clamp_differently: Vec<Owner>,
    pub jobs: [Job; 2],
    /// The bytes of each output memory.
    pub lent: usize,
}

/// A random pair of this form that differs in entries of these owners only.
pub fn random_pair(
    part: &'static Part,
    form: Form,
    owners: &[Owner],
    rng: &mut Rng,
) -> Result<Pair, Difference> {
    let (first, second) = secret_pair_by(form, owners, rng);
    let lent = memory_length(rng, &first);
    let first = part.case(rng, &first, lent, part.answer_bytes);
    let second = first.with_input(&second);
    compare_pair(owners, &first, &second)
}

/// Two sheets that differ in entries of these owners only, with the same memories: each against the
/// model, and then both against each other. The answers are equal, and so is each byte of the
/// output memory that does not lie in a column of one of these owners: those of another owner among
/// them.
fn compare_pair(owners: &[Owner], first: &Case, second: &Case) -> Result<Pair, Difference> {
    let jobs = check_pair(owners, first, second)?;
    let (one, other) = (compare(first)?, compare(second)?);
    let differs = |message: String| {
        let twin = second.input().escape_ascii();
        first.differs(format!("{message}\nits twin \"{twin}\""))
    };
    let (Some(answer), Some(others)) = (numbers(&one), numbers(&other)) else {
        return Err(differs("a pair has no seven numbers".to_string()));
    };
    if one.returned != other.returned || answer != others {
        return Err(differs(format!("a pair answers {answer:?} and {others:?}")));
    }
    let written = answer[4] as usize;
    let places = different_places(one.output(), other.output());
    let theirs = |owner: Owner, place: usize| in_column_of(&jobs[0], owner, place, written);
    let hidden = |place: usize| owners.iter().any(|&owner| theirs(owner, place));
    if let Some(place) = places.iter().find(|&&place| !hidden(place)) {
        return Err(differs(format!(
            "a pair of {owners:?} differs in byte {place}, which lies in no column of these owners"
        )));
    }
    let seen = |owner: Owner| places.iter().any(|&place| theirs(owner, place));
    let lent = one.output().len();
    Ok(Pair {
        returned: one.returned,
        differ: owners.iter().copied().filter(|&o| seen(o)).collect(),
        clamp_differently: clamp_differently(&jobs, lent),
        jobs,
        lent,
    })
}

/// The places where two memories of the same length differ.
pub fn different_places(one: &[u8], other: &[u8]) -> Vec<usize> {
    if one == other {
        return Vec::new();
    }
    let places = 0..one.len();
    places.filter(|&place| one[place] != other[place]).collect()
}

/// The owners whose executions clamp more results in one of the runs than in the other.
fn clamp_differently(jobs: &[Job; 2], lent: usize) -> Vec<Owner> {
    let [one, other] = jobs.each_ref().map(|job| followers(job, lent));
    let both = one.iter().zip(&other);
    let different = both.filter(|(one, other)| one.clamped != other.clamped);
    different.map(|(one, _)| one.owner).collect()
}

/// What the owners' executions did in the run of a job.
fn followers(job: &Job, lent: usize) -> Vec<Followed> {
    let (_, unreported) = run_by(CallRule::SameKind, job, &mut vec![0; lent]);
    unreported.followers
}

/// The jobs of the two sheets, if they differ as the sheets of a pair do.
fn check_pair(owners: &[Owner], first: &Case, second: &Case) -> Result<[Job; 2], Difference> {
    let (Ok(one), Ok(other)) = (read(first.input()), read(second.input())) else {
        return Err(first.differs("the model refuses a sheet of a pair".to_string()));
    };
    if one == other || without_entries(owners, &one) != without_entries(owners, &other) {
        return Err(first.differs("a pair differs in more, or less, than its secrets".to_string()));
    }
    Ok([one, other])
}

/// The job with every secret entry of these owners taken out of its messages.
fn without_entries(owners: &[Owner], job: &Job) -> Job {
    let mut job = job.clone();
    for message in &mut job.messages {
        for (entry, secret) in message.iter_mut().zip(&job.secrets) {
            if secret.is_some_and(|secret| owners.contains(&secret.owner)) {
                *entry = None;
            }
        }
    }
    job
}
