//! Random calls at the library and at the peer in step, with everything that comes back compared.

mod building;
mod bytes;
mod caller;
mod counts;
mod entries;
mod fields;
mod inputs;
mod lockstep;
mod meaning;
mod names;
mod parts;
mod plant;
mod rows;
mod session;
mod states;
mod sweep;
mod walking;
mod ways;
mod wire;

use crate::form::Form;
use crate::random::Random;
use caller::Caller;
use fields::Mix;
use lockstep::Lockstep;
use session::Session;

/// Steps of one session, of one call or a few each.
const SESSION_STEPS: usize = 600;

/// Makes at least that many random calls on states, and others with them. With `all`, calls over all
/// lengths and places come first, and everything that can come up must have come up.
pub fn run(form: &'static dyn Form, calls: u64, seed: u64, all: bool) -> bool {
    println!("compare: {}, seed {seed}", form.name());
    let mix = Mix { removals: 10, ttls: 10 };
    let (run, random) = (Lockstep::new(form, !seed), Random::new(seed));
    let mut caller = Caller { run, random, pool: Vec::new(), mix, turns: [0; 4] };
    if all {
        caller.sweep();
        println!("compare: {} calls over all lengths and places, the others at random", caller.run.calls);
    }
    let last = caller.run.calls_on_states + calls;
    while caller.run.calls_on_states < last && !caller.run.is_spoiled() {
        let mut session = Session::new(&mut caller);
        for _ in 0..SESSION_STEPS {
            session.step();
        }
        session.finish();
    }
    let mut gaps = caller.run.counts.report();
    if caller.run.followers == 0 {
        gaps.push("no client followed to the end of an undisturbed session".to_string());
    }
    println!("\n{} clients had the server's rows at the end of an undisturbed session", caller.run.followers);
    if all {
        gaps.iter().for_each(|gap| println!("GAP: {gap}"));
    }
    println!("{} of the calls take a state and give an answer", caller.run.calls_on_states);
    println!("{} differences in {} calls", caller.run.differences, caller.run.calls);
    caller.run.differences == 0 && (gaps.is_empty() || !all)
}
