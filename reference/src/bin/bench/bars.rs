//! What the times are held to.

use std::ops::RangeInclusive;

use crate::markdown::{capital, head, row};
use crate::times::{Results, Timed};

/// The most that a call of the library may take of the time of the plain Rust
/// version.
struct Bar {
    call: Timed,
    stations: RangeInclusive<usize>,
    most: f64,
}

const fn bar(call: Timed, stations: RangeInclusive<usize>, most: f64) -> Bar {
    Bar {
        call,
        stations,
        most,
    }
}

const BARS: [Bar; 5] = [
    bar(Timed::Run, 8..=8, 1.2),
    bar(Timed::Run, 16..=64, 0.8),
    bar(Timed::Run, 64..=64, 0.5),
    bar(Timed::Sweep, 8..=64, 1.1),
    bar(Timed::Open, 8..=64, 1.1),
];

impl Bar {
    fn stations(&self) -> String {
        let (least, most) = (self.stations.start(), self.stations.end());
        match least == most {
            true => format!("{least}"),
            false => format!("{least} to {most}"),
        }
    }

    /// The highest ratio and where it was found.
    fn worst(&self, results: &[Results]) -> (f64, String) {
        let of_call = results.iter().filter(|results| results.call == self.call);
        let all = of_call.flat_map(Results::all);
        let held = all.filter(|(_, n, _)| self.stations.contains(n));
        let found = held.map(|(shape, n, times)| (times.over_plain(), shape, n));
        let (ratio, shape, n) = found.max_by(|a, b| a.0.total_cmp(&b.0)).expect("a time");
        (ratio, format!("{shape}, {n} stations"))
    }
}

pub fn print(results: &[Results]) {
    let heads = ["stations", "at most", "highest", "of", "met"];
    print!("{}", head("call", &heads.map(String::from)));
    for bar in BARS {
        let (ratio, place) = bar.worst(results);
        let met = if ratio <= bar.most { "yes" } else { "no" };
        let cells = [
            bar.stations(),
            bar.most.to_string(),
            format!("{ratio:.2}"),
            place,
            met.into(),
        ];
        print!("{}", row(&capital(bar.call.name()), &cells));
    }
}
