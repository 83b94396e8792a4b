//! The program's arguments.

pub const HELP: &str =
    "agreement [--calls N] [--packets N] [--seed S] [--case C | --many C [--only P,P,..]]

Makes calls on the library and on the reference, and compares them: single calls, then bursts and serves.
  --calls N   how many single calls, 2,500,000 if not given; 0 for none
  --packets N how many packets in bursts and serves, 500,000 if not given; 0 for none
  --seed S    where the random cases come from, 1 if not given
  --case C    only this case of single calls
  --many C    only this case of bursts and serves
  --only P,.. of this case only the calls of these places, or the bursts, serves and packets of these";

/// Which cases are run.
#[derive(Clone, Debug, PartialEq, Eq)]
pub enum Cases {
    All,
    Calls(u64),
    Many(u64),
}

#[derive(Clone, Debug, PartialEq, Eq)]
pub struct Options {
    pub calls: usize,
    pub packets: usize,
    pub seed: u64,
    pub cases: Cases,
    pub only: Option<Vec<usize>>,
}

impl Options {
    /// Reads the arguments, without the program's name.
    pub fn read(mut arguments: impl Iterator<Item = String>) -> Result<Options, String> {
        let mut options =
            Options { calls: 2_500_000, packets: 500_000, seed: 1, cases: Cases::All, only: None };
        while let Some(name) = arguments.next() {
            let mut value = || arguments.next().ok_or(format!("{name} needs a number"));
            match name.as_str() {
                "--calls" => options.calls = number(&value()?)?,
                "--seed" => options.seed = number(&value()?)?,
                "--packets" => options.packets = number(&value()?)?,
                "--case" => options.cases = Cases::Calls(number(&value()?)?),
                "--many" => options.cases = Cases::Many(number(&value()?)?),
                "--only" => {
                    let places = value()?;
                    let places: Result<Vec<usize>, String> =
                        places.split(',').map(number).collect();
                    options.only = Some(places?);
                }
                _ => return Err(HELP.into()),
            }
        }
        match options.only.is_some() && options.cases == Cases::All {
            true => Err("--only goes with --case or --many".into()),
            false => Ok(options),
        }
    }
}

fn number<T: std::str::FromStr>(text: &str) -> Result<T, String> {
    text.replace(['_', ','], "").parse().map_err(|_| format!("{text} is no number"))
}
