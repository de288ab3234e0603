//! Times of the library beside those of plain Rust: the same certificates in the same process.

mod beside;
mod calls;
mod clock;
mod measure;
mod once;
mod rival;
mod sample;
mod table;

pub use once::once;
pub use table::Row;

use beside::Beside;
use calls::{Call, Ready};
use measure::medians;
use sample::{Asked, Sample};
use table::Other;

/// Which certificates are timed.
#[derive(Clone, Copy, Debug, PartialEq, Eq)]
pub enum Extent {
    All,
    /// Without verdicts on those of 4,096 entries.
    Part,
}

/// Times every call, and shows each row as soon as it is there. A result that is not the due one is an error.
pub fn bench(extent: Extent, mut show: impl FnMut(Row)) -> Result<(), String> {
    let plain = ["L", "typical", "largest"];
    let judged = ["L", "typical", "largest", "worst"];
    let started = ["typical H2", "typical H3", "largest H2", "largest H3"];
    let (judged, listed, started) = match extent {
        Extent::All => (&judged[..], &plain[..], &started[..]),
        Extent::Part => (&judged[..2], &plain[..2], &started[..2]),
    };
    let mut time = |call: Call, names: &[&str]| -> Result<(), String> {
        for name in names {
            show(row(call, &Sample::named(name)?)?);
        }
        Ok(())
    };
    time(Call::Screen, &plain)?;
    for call in [Call::Judge, Call::Load] {
        time(call, judged)?;
        time(call, started)?;
    }
    for name in ["L", "largest"] {
        time(Call::Query(Asked::First), &[name])?;
        time(Call::Query(Asked::Last), &[name])?;
        time(Call::Poll(Asked::First), &[name])?;
        time(Call::Poll(Asked::Last), &[name])?;
    }
    time(Call::Write, &plain)?;
    time(Call::List, listed)?;
    time(Call::Compare, listed)
}

/// Times one call on one certificate.
fn row(call: Call, sample: &Sample) -> Result<Row, String> {
    let mut ready = Ready::of(call, sample)?;
    let mut beside = Beside::of(call, sample)?;
    let mut other = Beside::of(call, sample)?;
    let mut functions: [&mut dyn FnMut(); 3] =
        [&mut || ready.make(), &mut || beside.make(), &mut || {
            other.make_other()
        }];
    let has_other = !matches!(call, Call::Screen | Call::Query(_) | Call::List);
    let times = medians(&mut functions[..if has_other { 3 } else { 2 }]);
    ready.check()?;
    beside.check()?;
    other.check()?;
    let (name, asked) = call.names();
    Ok(Row {
        call: name,
        certificate: format!("{} {asked}", sample.name).trim_end().to_string(),
        lookups: beside.lookups(),
        library: times[0],
        peer: times[1],
        other: match call {
            Call::Judge | Call::Load => Other::Method(times[2]),
            Call::Poll(_) => Other::InPlace(times[2]),
            Call::Write => Other::Copy(times[2]),
            Call::Compare => Other::TwiceJudge(times[2]),
            Call::Screen | Call::Query(_) | Call::List => Other::None,
        },
    })
}
