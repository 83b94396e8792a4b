//! The program: see options.rs for its arguments. It ends with 1 when the sides disagree or an answer was met too rarely.

use agreement::many;
use agreement::options::{Cases, Options};
use agreement::report;
use agreement::run::{calls_of, run, run_case, Met};
use agreement::shorten::replay;
use agreement::sides::Library;
use std::process::ExitCode;
use std::time::Instant;

fn main() -> ExitCode {
    let result = Options::read(std::env::args().skip(1)).and_then(|options| match options.cases {
        Cases::All => all_cases(&options),
        Cases::Calls(case) => one_case(&options, case),
        Cases::Many(case) => one_case_of_many(&options, case),
    });
    match result {
        Ok(()) => ExitCode::SUCCESS,
        Err(complaint) => {
            eprintln!("{complaint}");
            ExitCode::FAILURE
        }
    }
}

fn all_cases(options: &Options) -> Result<(), String> {
    if options.calls > 0 {
        all_calls(options)?;
    }
    if options.packets > 0 {
        all_many(options)?;
    }
    Ok(())
}

fn all_calls(options: &Options) -> Result<(), String> {
    let start = Instant::now();
    let met = run(&Library, options.seed, options.calls)
        .map_err(|failure| report::failure(&Library, &failure))?;
    print!("{}", report::tables(&met));
    none_too_rare(report::complaints(&met))?;
    println!(
        "\n{} calls in {} cases of seed {}: the library and the reference agree ({:.1} s)\n",
        met.tally.calls(),
        met.cases,
        options.seed,
        start.elapsed().as_secs_f64()
    );
    Ok(())
}

fn all_many(options: &Options) -> Result<(), String> {
    let start = Instant::now();
    let met = many::run::run(&Library, options.seed, options.packets)
        .map_err(|failure| many::report::failure(&Library, &failure))?;
    print!("{}", many::report::tables(&met));
    none_too_rare(many::report::complaints(&met))?;
    println!(
        "{} packets in {} bursts and {} serves of seed {}: the library and the reference agree ({:.1} s)",
        met.packets(),
        met.bursts.calls,
        met.serves.calls,
        options.seed,
        start.elapsed().as_secs_f64()
    );
    Ok(())
}

fn none_too_rare(complaints: Vec<String>) -> Result<(), String> {
    match complaints.is_empty() {
        true => Ok(()),
        false => Err(format!("met too rarely:\n{}", complaints.join("\n"))),
    }
}

fn one_case(options: &Options, case: u64) -> Result<(), String> {
    let Some(places) = &options.only else {
        let result = run_case(&Library, options.seed, case, &mut Met::default());
        result.map_err(|failure| report::failure(&Library, &failure))?;
        return agreed("case", case, options);
    };
    let (kind, first, calls) = calls_of(options.seed, case);
    check_places(places, calls.len())?;
    replay(&Library, kind, &first, &calls, places).map_or(agreed("case", case, options), Err)
}

fn one_case_of_many(options: &Options, case: u64) -> Result<(), String> {
    let Some(places) = &options.only else {
        let met = &mut many::run::Met::default();
        let result = many::run::run_case(&Library, options.seed, case, met);
        result.map_err(|failure| many::report::failure(&Library, &failure))?;
        return agreed("many", case, options);
    };
    let (_, first, calls) = many::run::calls_of(options.seed, case);
    check_places(places, many::report::units_of(&calls))?;
    let calls = many::report::kept(&calls, places);
    many::run::replay(&Library, &first, &calls).map_or(agreed("many", case, options), Err)
}

fn check_places(places: &[usize], length: usize) -> Result<(), String> {
    match places.iter().find(|&&place| place >= length) {
        Some(place) => Err(format!("the case has {length} places, and none of number {place}")),
        None => Ok(()),
    }
}

fn agreed(option: &str, case: u64, options: &Options) -> Result<(), String> {
    println!("{option} {case} of seed {}: the library and the reference agree", options.seed);
    Ok(())
}
