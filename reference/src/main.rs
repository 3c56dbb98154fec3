//! The reference runs: broker.rs, unchanged, fed the calls of document 01, and compared
//! with our own side of them. README.md explains the commands.

mod c_side;
mod call;
mod cases;
mod compare;
mod coverage;
mod errors;
mod generator;
mod limits;
mod model;
mod play;
mod rng;
mod rows;
mod script;
#[cfg(test)]
mod sha256;
mod shrink;
mod speed;
mod speed_rows;
// Fields that broker.rs fills and nothing here reads.
#[allow(dead_code)]
mod standins;
mod state;
mod trace;
mod vectors;
mod words;

// `pub mod broker`, written by build.rs.
include!(concat!(env!("OUT_DIR"), "/broker_mod.rs"));

use std::io::Read;
use std::process::exit;

use call::{Call, Side};
use compare::{Against, Comparison, Make, Verdict};
use coverage::Coverage;
use generator::Allowed;

const USAGE: &str = "usage:
  reference play [--state] [--model] [FILE]
                                         run a script on broker.rs (or on the model), from FILE
                                         or standard input
  reference compare [--seed S] [--calls N] [--side model|c] [--script FILE]
                                         the same calls to broker.rs and to another side
  reference check-errors [--brief]       deliberate errors in the model have to be caught
  reference vectors                      print the fixed list
  reference bench                        time the library's calls beside broker.rs's
  reference cases [--answers]            print the case runner's input, or its output
  reference rows [--seed S] [--rows N]   the same calls in rows and one by one, on the C exports
  reference trace --player PATH [--records N] [--seed S]
                                         the same traces to the trace player and to the model
  reference trace --example              write document 02's example trace
  reference trace-bench --player PATH    time the trace player beside the library's calls
  reference sha256                       print the SHA-256 of the broker.rs built in";

/// Ends with status 2: what was asked for makes no sense.
fn refuse(message: &str) -> ! {
    eprintln!("{message}");
    exit(2)
}

fn read(file: Option<&String>) -> String {
    let mut text = String::new();
    let result = match file.map(String::as_str) {
        None | Some("-") => std::io::stdin().read_to_string(&mut text).map(|_| ()),
        Some(name) => std::fs::read_to_string(name).map(|read| text = read),
    };
    if let Err(error) = result {
        refuse(&format!("{}: {error}", file.map_or("standard input", |name| name)));
    }
    text
}

fn play(args: &[String]) {
    let with_state = args.iter().any(|a| a == "--state");
    let on_model = args.iter().any(|a| a == "--model");
    let files: Vec<&String> = args.iter().filter(|a| !a.starts_with("--")).collect();
    let flags = usize::from(with_state) + usize::from(on_model);
    if files.len() > 1 || args.len() != files.len() + flags {
        refuse(USAGE);
    }
    let mut side: Box<dyn Side> = match on_model {
        true => Box::new(model::Model::new()),
        false => Box::new(broker::driver::Reference::new()),
    };
    match play::play(&read(files.first().copied()), side.as_mut(), with_state) {
        Ok(text) => print!("{text}"),
        Err(message) => refuse(&message),
    }
}

struct Options {
    seed: u64,
    calls: usize,
    c_side: bool,
    script: Option<String>,
}

fn options(args: &[String]) -> Options {
    let mut options = Options { seed: 1, calls: 100_000, c_side: true, script: None };
    let mut args = args.iter();
    while let Some(name) = args.next() {
        let Some(value) = args.next() else { refuse(USAGE) };
        match (name.as_str(), value.as_str()) {
            ("--seed", n) => options.seed = n.parse().unwrap_or_else(|_| refuse(USAGE)),
            ("--calls", n) => options.calls = n.parse().unwrap_or_else(|_| refuse(USAGE)),
            ("--side", "model") => options.c_side = false,
            ("--side", "c") => options.c_side = true,
            ("--script", _) => options.script = Some(value.clone()),
            _ => refuse(USAGE),
        }
    }
    if options.c_side && !c_side::exported()[0] {
        println!(
            "the C exports are not built yet (LIBBROKER named no archive with broker_open when \
             this was built): comparing with the model"
        );
        options.c_side = false;
    }
    options
}

fn difference(comparison: &Comparison, calls: &[Call], at: usize) -> ! {
    println!("the sides differ; the shortest script found:");
    println!("{}", comparison.shortest(calls, at).text());
    exit(1)
}

/// The calls that the other side exports. Where some are missing, what is left may leave
/// the domain (a redeliver too many if no push came between); such calls go too.
fn exported_calls(calls: &[Call], allowed: &Allowed) -> Vec<Call> {
    if *allowed == generator::ALL {
        return calls.to_vec();
    }
    let mut model = model::Model::new();
    let mut kept = Vec::new();
    for call in calls.iter().filter(|c| allowed[c.operation()]) {
        if !model.leaves_domain(call) {
            model.call(call);
            kept.push(call.clone());
        }
    }
    kept
}

/// Compares one given sequence, as far as the other side exports its calls.
fn given(comparison: &Comparison, name: &str, calls: &[Call], allowed: &Allowed) -> usize {
    let calls = exported_calls(calls, allowed);
    match comparison.run(&calls, &mut Coverage::default()) {
        Verdict::Same => calls.len(),
        Verdict::Differs(d) => difference(comparison, &calls, d.at),
        Verdict::Outside(at) => refuse(&format!(
            "{name}: call {} is outside the comparison domain: {}",
            at + 1,
            calls.get(at).map_or_else(|| "no open".to_owned(), script::format_call)
        )),
    }
}

/// Compares random sequences and says what they reached.
fn random(comparison: &Comparison, options: &Options, allowed: &Allowed, who: &str) {
    let mut coverage = Coverage::default();
    let searched = comparison.search(options.seed, options.calls, allowed, &mut coverage);
    if let Some((calls, d)) = searched.difference {
        difference(comparison, &calls, d.at);
    }
    println!("seed {}, {} calls: {who} agree", options.seed, searched.calls);
    println!("  calls: {}", coverage.operations_text());
    println!("  reached: {}", coverage.situations_text());
    if !coverage.outside_text().is_empty() {
        println!("  outside the domain: {}", coverage.outside_text());
    }
    if !coverage.missing().is_empty() {
        println!("  never reached: {}", coverage.missing().join(", "));
    }
}

/// Who is compared outside broker.rs's domain.
const RULES: &str = "outside the domain too, the model and the C exports";

fn compare(args: &[String]) {
    let options = options(args);
    let make: Make = if options.c_side {
        &|| Box::new(c_side::CSide::new()) as Box<dyn Side>
    } else {
        &|| Box::new(model::Model::new()) as Box<dyn Side>
    };
    let c = options.c_side;
    let side = if c { "the C exports" } else { "the model" };
    let who = format!("broker.rs and {side}");
    let allowed = if c { c_side::exported() } else { generator::ALL };
    let rust = Comparison { make, against: Against::Rust, with_state: true, in_order: c };
    if c && !c_side::missing().is_empty() {
        println!("not exported yet, comparison off: {}", c_side::missing().join(", "));
    }
    if let Some(file) = &options.script {
        let calls = script::calls(&read(Some(file))).unwrap_or_else(|e| refuse(&e));
        let made = given(&rust, file, &calls, &allowed);
        println!("{file}: {made} calls, {who} agree");
        return;
    }
    let limits = limits::all();
    let made: usize = limits.iter().map(|(name, calls)| given(&rust, name, calls, &allowed)).sum();
    println!("{} fixed sequences, {made} calls: {who} agree", limits.len());
    random(&rust, &options, &allowed, &who);
    if c {
        let rules = Comparison { against: Against::Rules, with_state: false, ..rust };
        let outside = limits::outside();
        let made: usize = outside.iter().map(|(name, c)| given(&rules, name, c, &allowed)).sum();
        println!(
            "{} fixed sequences outside the domain, {made} calls: {side} and the model agree",
            outside.len()
        );
        random(&rules, &options, &allowed, RULES);
    }
}

fn main() {
    let args: Vec<String> = std::env::args().skip(1).collect();
    let Some((command, rest)) = args.split_first() else { refuse(USAGE) };
    match (command.as_str(), rest) {
        ("play", _) => play(rest),
        ("compare", _) => compare(rest),
        ("check-errors", []) => exit(i32::from(!errors::check(false))),
        ("check-errors", [brief]) if brief == "--brief" => exit(i32::from(!errors::check(true))),
        ("cases", []) => print!("{}", cases::script().unwrap_or_else(|e| refuse(&e))),
        ("cases", [answers]) if answers == "--answers" => {
            print!("{}", cases::answers().unwrap_or_else(|e| refuse(&e)))
        }
        ("vectors", []) => print!("{}", vectors::text()),
        ("bench", []) => {
            speed::bench();
            speed_rows::bench();
        }
        ("rows", _) => rows::command(rest, USAGE),
        ("trace", [example]) if example == "--example" => trace::write_example(),
        ("trace", _) => trace::command(rest, USAGE),
        ("trace-bench", _) => trace::speed::bench(rest, USAGE),
        ("sha256", []) => println!("{}", env!("BROKER_SHA256")),
        _ => refuse(USAGE),
    }
}
