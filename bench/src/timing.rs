//! Interleaved timing of several forms of one question.

use std::hint::black_box;
use std::sync::atomic::{AtomicUsize, Ordering};
use std::time::Instant;

pub const ROUNDS: usize = 31;

/// Time of one run of the plain rule in a round, in nanoseconds.
const ROUND_NS: f64 = 1_000_000.0;

/// Lines of forms that are exact, ours among them, whose answers differ from the plain rule's.
static WRONG: AtomicUsize = AtomicUsize::new(0);

pub fn wrong() -> usize {
    WRONG.load(Ordering::Relaxed)
}

const SAME: &str = "same";

pub struct Form<'a> {
    pub name: &'static str,
    /// "same", or how many answers differ from the plain rule's.
    pub agrees: String,
    /// Puts every question of the set once; the sum of the answers.
    pub run: Box<dyn FnMut() -> u64 + 'a>,
}

impl<'a> Form<'a> {
    pub fn new(name: &'static str, agrees: String, run: impl FnMut() -> u64 + 'a) -> Form<'a> {
        Form {
            name,
            agrees,
            run: Box::new(run),
        }
    }
}

/// How many of the answers differ, in words.
pub fn differ<T: PartialEq>(plain: &[T], other: &[T]) -> String {
    assert_eq!(plain.len(), other.len());
    let count = plain.iter().zip(other).filter(|(x, y)| x != y).count();
    if count == 0 {
        SAME.to_string()
    } else {
        format!("{count} of {} differ", plain.len())
    }
}

/// The plain rule and ours on the same questions, a call for each.
/// sum makes a number of an answer.
pub fn both<Q, A: PartialEq>(
    question: &str,
    asked: &[Q],
    plain: impl Fn(&Q) -> A,
    ours: impl Fn(&Q) -> A,
    sum: impl Fn(&A) -> u64,
) {
    let plain_answers: Vec<A> = asked.iter().map(&plain).collect();
    let our_answers: Vec<A> = asked.iter().map(&ours).collect();
    let forms = vec![
        Form::new("plain", String::new(), || sum_of(asked, &plain, &sum)),
        Form::new("ours", differ(&plain_answers, &our_answers), || {
            sum_of(asked, &ours, &sum)
        }),
    ];
    measure(question, asked.len(), forms);
}

fn sum_of<Q, A>(asked: &[Q], answer: impl Fn(&Q) -> A, sum: impl Fn(&A) -> u64) -> u64 {
    let add = |total: u64, ask| total.wrapping_add(sum(black_box(&answer(ask))));
    asked.iter().fold(0, add)
}

pub fn header() {
    println!(
        "{:<44} {:<8} {:>9} {:>7}  answers",
        "question", "form", "best ns", "ratio"
    );
}

fn pass(form: &mut Form, passes: usize) -> f64 {
    let start = Instant::now();
    for _ in 0..passes {
        black_box((form.run)());
    }
    start.elapsed().as_nanos() as f64 / passes as f64
}

/// Times the forms and prints a line for each; the first form is the plain rule.
/// calls is how many questions one run puts.
pub fn measure(question: &str, calls: usize, mut forms: Vec<Form>) {
    let warm = pass(&mut forms[0], 3);
    let passes = (ROUND_NS / warm).ceil().max(1.0) as usize;
    let mut times = vec![Vec::with_capacity(ROUNDS); forms.len()];
    for round in 0..ROUNDS {
        for turn in 0..forms.len() {
            let which = (round + turn) % forms.len();
            times[which].push(pass(&mut forms[which], passes));
        }
    }
    for (form, own) in forms.iter().zip(&times) {
        if ["ours", "lean", "exact"].contains(&form.name) && form.agrees != SAME {
            WRONG.fetch_add(1, Ordering::Relaxed);
        }
        let best = own.iter().copied().fold(f64::INFINITY, f64::min) / calls as f64;
        let ratios = own.iter().zip(&times[0]).map(|(x, y)| x / y);
        println!(
            "{question:<44} {:<8} {best:>9.2} {:>7.2}  {}",
            form.name,
            median(ratios.collect()),
            form.agrees
        );
    }
}

fn median(mut values: Vec<f64>) -> f64 {
    values.sort_by(f64::total_cmp);
    values[values.len() / 2]
}
