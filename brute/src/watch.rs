//! A call of the library that does not come back can't be left, but another thread can see it: that one
//! names the sheet or text and ends the program.

use crate::case::InWords;
use std::sync::{Mutex, MutexGuard};
use std::thread;
use std::time::{Duration, Instant};

/// The longest call on 30,000 random sheets was one of 22 ms, on a busy machine.
const PATIENCE: Duration = Duration::from_secs(20);

struct Call {
    name: &'static str,
    arguments: Box<dyn InWords + Send>,
    began: Instant,
}

struct Watched {
    /// Where the sheet or text comes from. A call may be on one that was made from it, smaller or larger.
    from: String,
    call: Option<Call>,
}

static WATCHED: Mutex<Watched> = Mutex::new(Watched {
    from: String::new(),
    call: None,
});

fn now() -> MutexGuard<'static, Watched> {
    WATCHED.lock().expect("nothing panics that holds it")
}

pub fn start() {
    thread::spawn(|| loop {
        thread::sleep(Duration::from_secs(1));
        let watched = now();
        if let Some(call) = &watched.call {
            if call.began.elapsed() > PATIENCE {
                report(&watched.from, call);
                std::process::exit(1);
            }
        }
    });
}

fn report(from: &str, call: &Call) {
    let seconds = PATIENCE.as_secs();
    println!("{from}: the {} did not come back in {seconds} s", call.name);
    print!("{}", call.arguments.in_words());
    println!("brute: ended, since the library hangs");
}

/// Names the sheet or text of the calls to come.
pub fn from(name: String) {
    now().from = name;
}

/// Makes a call under watch.
pub fn watched<T>(
    name: &'static str,
    arguments: &(impl InWords + Clone + Send + 'static),
    call: impl FnOnce() -> T,
) -> T {
    now().call = Some(Call {
        name,
        arguments: Box::new(arguments.clone()),
        began: Instant::now(),
    });
    let result = call();
    now().call = None;
    result
}
