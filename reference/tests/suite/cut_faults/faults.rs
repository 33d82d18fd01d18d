//! What may be wrong with a cut step.

#[derive(Clone, Copy, Debug, PartialEq, Eq)]
pub enum Fault {
    /// 12 comes before 11.
    StrayBeforeTwoWay,
    /// 11 is not given for a leg without its reverse, or not for two stations.
    OneWayTaken,
    TwoStationsTaken,
    /// A must-drive road given one way is taken for both, or stray ones are left out.
    OneWayMustTaken,
    StrayLeftOut,
    /// Nothing is refused where the end is none.
    EndNoneUnchecked,
    /// 7 comes after 12.
    BadStateLast,
    /// A refusal clears the must-drive table, or tells a removal.
    RefusedMustCleared,
    RefusedCounts,
    /// The end is none, and yet a table changes.
    MustGrowsAtEndNone,
    RemovesAtEndNone,
    /// The verdict is none, and yet the tables or the place change.
    TablesChangeAtNone,
    NoneMovesThePlace,
    /// Removals are told in roads.
    RemovalsInRoads,
    /// Only one leg of a road goes.
    OneDirectionStruck,
    /// Roads go, and place, mark and end stay.
    PlaceKept,
    /// Must-drive roads alone open the state.
    OnlyMustReopens,
    /// A cut of more than three must-drive roads gives none.
    MoreThanThreeMust,
    /// A road goes beside a single must-drive one.
    ThirdWithOneMust,
    /// Of a cut with two must-drive roads all others go, however many there are.
    OthersOfMoreThanThree,
    /// Three-road cuts make their roads must-drive.
    ThreeRoadsForced,
    /// Cuts of no road, of one road, of three must-drive roads do not give none.
    NoRoadMissed,
    OneRoadForced,
    ThreeMustMissed,
    /// None leaves the end as it was.
    NoneForgotten,
    /// A road that would do both is kept as must-drive, or goes.
    BothForced,
    BothDropped,
    /// A two-road cut makes one of its roads must-drive, or none.
    OneOfTwoForced,
    MustNotGrown,
    /// Two-road cuts are looked for in what the three-road cuts have left.
    CutsOfWhatIsLeft,
    /// One road that should go stays.
    RoadMissed,
    /// Only the cuts around single stations are looked at.
    SingleStationsOnly,
    /// Roads that become must-drive in this call count for its three-road cuts.
    NewMustCounts,
    /// None where nothing is to be done.
    NoneWithoutRoads,
    /// A missing road comes back.
    LegComesBack,
    /// The roads of this call alone are handed back.
    MustOfThisCallOnly,
}

pub const FAULTS: [Fault; 36] = [
    Fault::StrayBeforeTwoWay,
    Fault::OneWayTaken,
    Fault::TwoStationsTaken,
    Fault::OneWayMustTaken,
    Fault::StrayLeftOut,
    Fault::EndNoneUnchecked,
    Fault::BadStateLast,
    Fault::RefusedMustCleared,
    Fault::RefusedCounts,
    Fault::MustGrowsAtEndNone,
    Fault::RemovesAtEndNone,
    Fault::TablesChangeAtNone,
    Fault::NoneMovesThePlace,
    Fault::RemovalsInRoads,
    Fault::OneDirectionStruck,
    Fault::PlaceKept,
    Fault::OnlyMustReopens,
    Fault::MoreThanThreeMust,
    Fault::ThirdWithOneMust,
    Fault::OthersOfMoreThanThree,
    Fault::ThreeRoadsForced,
    Fault::NoRoadMissed,
    Fault::OneRoadForced,
    Fault::ThreeMustMissed,
    Fault::NoneForgotten,
    Fault::BothForced,
    Fault::BothDropped,
    Fault::OneOfTwoForced,
    Fault::MustNotGrown,
    Fault::CutsOfWhatIsLeft,
    Fault::RoadMissed,
    Fault::SingleStationsOnly,
    Fault::NewMustCounts,
    Fault::NoneWithoutRoads,
    Fault::LegComesBack,
    Fault::MustOfThisCallOnly,
];
