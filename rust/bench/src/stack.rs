//! The stack that a call needs, measured without looking inside it.
//!
//! A thread with a stack of fixed size first uses up some of it by recursion
//! and then makes the call; if the stack does not hold both, the process dies.
//! So each try is a process of its own. The most that can be used up before a
//! call, taken from the most before no call at all, is what the call needs.

use crate::tables;
use compare::library::by_name;
use std::hint::black_box;
use std::process::{Command, ExitCode, Stdio};
use std::thread;

/// The first argument of a process that makes one try.
pub const TRY: &str = "--try-stack";

/// The stack of the thread, well above what any call needs.
const STACK: usize = 512 * 1024;

/// What may be called.
const CALLS: [&str; 3] = ["nothing", "report", "row"];

/// Makes one try: library, call and depth come as arguments. Prints the bytes
/// used up before the call.
pub fn try_once(arguments: &[String]) -> ExitCode {
    let [library, call, depth] = arguments else { return ExitCode::from(2) };
    let Ok(depth) = depth.parse() else { return ExitCode::from(2) };
    let table = tables::turbine().remove(0).text;
    let work = || {
        let library = by_name(library)?;
        let mut buffer = [0; 256];
        let mut make = || match call.as_str() {
            "report" => assert_eq!(library.report(&table, &mut buffer).number, 0),
            "row" => assert_eq!(library.row(&table, 777, &mut buffer).0.number, 0),
            _ => {}
        };
        let start = 0;
        Some(use_up(depth, address(&start), &mut make))
    };
    let used = thread::scope(|scope| {
        let tried = thread::Builder::new().stack_size(STACK).spawn_scoped(scope, work).ok()?;
        tried.join().ok()?
    });
    match used {
        Some(used) => {
            println!("{used}");
            ExitCode::SUCCESS
        }
        None => ExitCode::FAILURE,
    }
}

fn address<T>(place: &T) -> usize {
    std::ptr::from_ref(place).addr()
}

/// Goes `depth` frames deeper, makes the call there, and gives the bytes
/// between the deepest frame and `start`.
#[inline(never)]
fn use_up(depth: usize, start: usize, call: &mut dyn FnMut()) -> usize {
    let frame = black_box([0u8; 16]);
    let used = if depth == 0 {
        call();
        start - address(&frame)
    } else {
        use_up(depth - 1, start, call)
    };
    black_box(&frame);
    used
}

/// The bytes used up before the call in a process that lived, else none.
fn tried(library: &str, call: &str, depth: usize) -> Option<usize> {
    let program = std::env::current_exe().expect("this program has a path");
    let done = Command::new(program)
        .args([TRY, library, call, &depth.to_string()])
        .stderr(Stdio::null())
        .output()
        .expect("this program can be started again");
    done.status.success().then(|| String::from_utf8_lossy(&done.stdout).trim().parse().expect("a number"))
}

/// The most bytes that can be used up before the call.
fn most(library: &str, call: &str) -> usize {
    let (mut lives, mut dies) = (0, STACK);
    let mut used = tried(library, call, lives).expect("the stack holds the call alone");
    while dies - lives > 1 {
        let depth = (lives + dies) / 2;
        match tried(library, call, depth) {
            Some(more) => (lives, used) = (depth, more),
            None => dies = depth,
        }
    }
    used
}

/// Prints what each library's two calls need.
pub fn section(names: &[&str]) {
    println!("\nStack of a call, in bytes, to within a frame of the measuring recursion");
    println!("{:<8}{:>10}{:>10}", "library", "report", "row");
    for name in names {
        let [nothing, report, row] = CALLS.map(|call| most(name, call));
        println!("{name:<8}{:>10}{:>10}", nothing - report, nothing - row);
    }
}
