//! The files of a run, by kind: whole captures, and all that can be wrong with a file.

mod broken;
mod damage;
mod family;
mod limits;
mod noise;
mod store;
mod timeline;

use capture::Random;

/// Where a file comes from.
#[derive(Clone, Copy, Debug, Eq, Ord, PartialEq, PartialOrd)]
pub enum Kind {
    /// A capture of a store that does what it should.
    Honest,
    /// The same, with one return changed.
    Broken,
    /// The same, with some answers from an earlier state.
    Stale,
    /// Each thread's operations in their own order, at moments that have nothing to do with their effects.
    Reordered,
    /// Any events in any order.
    Wild,
    /// A whole capture, cut at each of its bytes.
    Cut,
    /// A few bits changed.
    Flipped,
    /// Numbers with groups of zero behind them.
    Padded,
    /// A number of too many bytes, or too large.
    Overlong,
    /// A number that stands for nothing.
    Unknown,
    /// A thread above 7.
    HighThread,
    /// An invoke where 64 operations are held.
    Full,
    /// An invoke on a busy thread.
    SecondInvoke,
    /// A return on an idle thread.
    StrayReturn,
    /// Any bytes, with a header or without.
    Noise,
    /// About as long as a file may be, or longer.
    Long,
}

impl Kind {
    pub const ALL: [Kind; 16] = [
        Kind::Honest,
        Kind::Broken,
        Kind::Stale,
        Kind::Reordered,
        Kind::Wild,
        Kind::Cut,
        Kind::Flipped,
        Kind::Padded,
        Kind::Overlong,
        Kind::Unknown,
        Kind::HighThread,
        Kind::Full,
        Kind::SecondInvoke,
        Kind::StrayReturn,
        Kind::Noise,
        Kind::Long,
    ];

    /// Some files of this kind, at least one.
    pub fn files(self, random: &mut Random) -> Vec<Vec<u8>> {
        let file = match self {
            Kind::Honest => store::honest(random).bytes(),
            Kind::Broken => broken::broken(random).bytes(),
            Kind::Stale => store::stale(random).bytes(),
            Kind::Reordered => timeline::reordered(random).bytes(),
            Kind::Wild => timeline::wild(random).bytes(),
            Kind::Cut => return damage::cuts(random),
            Kind::Flipped => damage::flipped(random),
            Kind::Padded => damage::padded_numbers(random),
            Kind::Overlong => damage::overlong(random),
            Kind::Unknown => damage::unknown(random),
            Kind::HighThread => broken::high_thread(random).bytes(),
            Kind::Full => limits::full(random).bytes(),
            Kind::SecondInvoke => broken::second_invoke(random).bytes(),
            Kind::StrayReturn => broken::stray_return(random).bytes(),
            Kind::Noise => noise::noise(random),
            Kind::Long => limits::long(random),
        };
        vec![file]
    }
}
