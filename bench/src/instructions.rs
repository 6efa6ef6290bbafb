//! Instructions per call, counted by valgrind's callgrind over runs of this program.

use crate::cases::{Bench, CASES, KEYS, Keys, Library, Peer, Side};
use crate::functions::Header;
use crate::measure::{print_head, print_row};
use crate::module::Module;
use std::hint::black_box;
use std::path::Path;
use std::process::Command;

const CALLS: u64 = 20;

/// Callgrind counts a `rep movsb` as one instruction for each byte. So that moving rows is not counted
/// as some 20,000, the C library is told to copy by vector instructions instead.
const COPYING: (&str, &str) = ("GLIBC_TUNABLES", "glibc.cpu.x86_rep_movsb_threshold=1000000000");

/// Callgrind counts between entering and leaving this function alone, so it needs a plain name and
/// may not be inlined.
#[unsafe(no_mangle)]
#[inline(never)]
fn counted_call(call: &mut dyn FnMut()) {
    black_box(call)();
}

fn make_calls<S: Side>(mut bench: Bench<S>, calls: u64) {
    for _ in 0..calls {
        counted_call(&mut || bench.call());
        bench.undo();
    }
}

/// Sets one case up and makes its calls: what a run under callgrind does.
pub fn count(case: &str, keys: &str, who: &str, calls: u64) -> bool {
    let case = CASES.iter().find(|(_, name, _)| *name == case);
    let keys = KEYS.iter().find(|shape| shape.name == keys);
    let (Some(&(case, ..)), Some(&keys)) = (case, keys) else {
        return false;
    };
    match who {
        "library" => make_calls(Bench::new(Library::new(Header), case, keys), calls),
        "peer" => make_calls(Bench::new(Peer::new(), case, keys), calls),
        "library-by-rust" => make_calls(Bench::new(Library::new(Module), case, keys), calls),
        _ => return false,
    }
    true
}

/// Instructions per call of one case on one side, if valgrind runs.
fn counted(case: &str, keys: Keys, who: &str, folder: &Path) -> Option<u64> {
    let file = folder.join(format!("{case}-{}-{who}", keys.name));
    let run = Command::new("valgrind")
        .args(["--tool=callgrind", "--collect-atstart=no", "--toggle-collect=counted_call", "-q"])
        .arg(format!("--callgrind-out-file={}", file.display()))
        .arg(std::env::current_exe().ok()?)
        .args(["count", case, keys.name, who, &CALLS.to_string()])
        .env(COPYING.0, COPYING.1)
        .output()
        .ok()?;
    if !run.status.success() {
        eprint!("{}", String::from_utf8_lossy(&run.stderr));
        return None;
    }
    let profile = std::fs::read_to_string(file).ok()?;
    let total = profile.lines().find_map(|line| line.strip_prefix("totals: "))?;
    total.trim().parse::<u64>().ok().filter(|total| *total > 0).map(|total| total / CALLS)
}

fn table(folder: &Path) -> Option<()> {
    println!("Instructions per call, counted by callgrind inside the call alone ({CALLS} calls each). The C library");
    println!("copies by vector instructions, not by `rep movsb`, of which callgrind would count every byte.\n");
    print_head();
    for (_, case, title) in CASES {
        for keys in KEYS {
            let mut measured = [0.0; 3];
            for (count, who) in measured.iter_mut().zip(["library", "peer", "library-by-rust"]) {
                *count = counted(case, keys, who, folder)? as f64;
            }
            print_row(title, keys, measured);
        }
    }
    Some(())
}

pub fn run() -> bool {
    let folder = std::env::temp_dir().join(format!("chp-bench-{}", std::process::id()));
    if let Err(error) = std::fs::create_dir_all(&folder) {
        println!("no folder for callgrind's files: {error}");
        return false;
    }
    let done = table(&folder).is_some();
    if !done {
        println!("callgrind gave no count");
    }
    // What is left in the system's folder for such files harms nobody.
    let _ = std::fs::remove_dir_all(&folder);
    done
}
