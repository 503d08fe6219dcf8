//! What is measured: contenders side by side in a case, the case at several sizes in a series, and series of one function in a section.

use crate::timing::{time, Contender, Time};

/// One contender's time for one call, and the bytes that it goes over or writes in it.
pub struct Measure {
    pub name: &'static str,
    pub bytes: usize,
    pub time: Time,
}

impl Measure {
    /// A floor does less than the function's work; the name says so.
    fn is_floor(&self) -> bool {
        self.name.starts_with("floor")
    }
}

/// Contenders side by side: the library first, the opponent that headlines are about second.
pub struct Case {
    /// What growth is counted in.
    pub size: usize,
    /// What every contender does in a call: values decoded, words read.
    pub units: usize,
    pub measures: Vec<Measure>,
}

impl Case {
    pub fn of(size: usize, units: usize, mut contenders: Vec<Contender>) -> Case {
        let times = time(&mut contenders);
        let measures = contenders
            .iter()
            .zip(times)
            .map(|(contender, time)| Measure {
                name: contender.name,
                bytes: contender.bytes,
                time,
            });
        Case {
            size,
            units,
            measures: measures.collect(),
        }
    }

    /// The contenders that do the library's whole work, but the library itself.
    pub fn others(&self) -> impl Iterator<Item = &Measure> {
        self.measures
            .iter()
            .skip(1)
            .filter(|other| !other.is_floor())
    }

    /// The library's speed over another's: the other's median time over the library's.
    pub fn ratio(&self, other: &Measure) -> f64 {
        other.time.median / self.measures[0].time.median
    }
}

/// A case at one size or at three of them.
pub struct Series {
    pub name: String,
    pub cases: Vec<Case>,
}

pub struct Section {
    pub title: &'static str,
    /// What the cases' units and sizes are.
    pub units: &'static str,
    pub size: &'static str,
    pub notes: &'static str,
    /// Whether speeds are given for every size, not only for the middle one.
    pub every_size: bool,
    pub series: Vec<Series>,
}

impl Section {
    /// The cases that speeds are given for, each with the name of its series.
    pub fn shown(&self) -> impl Iterator<Item = (&str, &Case)> {
        self.series.iter().flat_map(|series| {
            let middle = series.cases.len() / 2;
            let shown = if self.every_size {
                &series.cases[..]
            } else {
                &series.cases[middle..=middle]
            };
            shown.iter().map(|case| (series.name.as_str(), case))
        })
    }
}
