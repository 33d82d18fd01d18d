//! Cut steps with one fault each, on up to 12 stations: above, they would take long.

use reference::cut::laws::Said;
use reference::cut::splits::{self, MOST_STATIONS};
use reference::cut::Roads;
use reference::gen::must::{common, together, NO_ROADS};
use reference::state::Rows;
use reference::{card, gen, Calls, Cut, End, Fast, LegTable, WorkState};

use super::faults::Fault;
use super::tables::{rows_of, taken, Tables};

/// A bit of the must-drive table that does not stand or has none the other way.
fn is_stray(state: &WorkState, must: &Rows) -> bool {
    let sound = |i: usize, k: usize| state.rows[i] & must[i] >> k & 1 == 1 && must[k] >> i & 1 == 1;
    (0..64).any(|i| (0..64).any(|k| must[i] >> k & 1 == 1 && !sound(i, k)))
}

fn taken_or(one: Cut, other: Cut) -> Cut {
    match one.number {
        card::TAKEN => one,
        _ => other,
    }
}

impl Fault {
    pub fn cut(self, state: WorkState, must: &Rows) -> Cut {
        let sound = Fast.cut(state, must);
        if sound.number != card::TAKEN {
            self.refused(state, must, sound)
        } else if state.n as usize > MOST_STATIONS {
            sound
        } else if state.end == End::None {
            self.ended(&Tables::new(state, must), sound)
        } else {
            self.worked(&Tables::new(state, must), sound)
        }
    }

    fn refused(self, state: WorkState, must: &Rows, mut sound: Cut) -> Cut {
        let both_ways = || {
            let legs = LegTable::from_rows(64, must).legs();
            gen::two_way(64, &legs).rows()
        };
        match (self, sound.number) {
            (Fault::StrayBeforeTwoWay, card::NOT_TWO_WAY) if is_stray(&state, must) => {
                sound.number = card::STRAY_ROAD;
            }
            (Fault::OneWayTaken, card::NOT_TWO_WAY) if state.n > 2 => return taken(state, must),
            (Fault::TwoStationsTaken, card::NOT_TWO_WAY) if state.n == 2 => {
                return taken(state, must);
            }
            (Fault::OneWayMustTaken, card::STRAY_ROAD) => {
                return taken_or(Fast.cut(state, &both_ways()), sound);
            }
            (Fault::StrayLeftOut, card::STRAY_ROAD) => {
                let standing = common(must, &state.rows);
                return taken_or(Fast.cut(state, &standing), sound);
            }
            (Fault::EndNoneUnchecked, card::NOT_TWO_WAY | card::STRAY_ROAD)
                if state.end == End::None =>
            {
                return taken(state, must);
            }
            (Fault::BadStateLast, card::BAD_WORK_STATE) if is_stray(&state, must) => {
                sound.number = card::STRAY_ROAD;
            }
            (Fault::RefusedMustCleared, _) => sound.must = NO_ROADS,
            (Fault::RefusedCounts, card::STRAY_ROAD) => sound.removed = 2,
            _ => {}
        }
        sound
    }

    fn ended(self, tables: &Tables, mut sound: Cut) -> Cut {
        let said = tables.said();
        match self {
            Fault::MustGrowsAtEndNone => sound.must = together(&sound.must, &rows_of(&said.forced)),
            Fault::RemovesAtEndNone => tables.change(&mut sound, &said),
            _ => {}
        }
        sound
    }

    fn worked(self, tables: &Tables, sound: Cut) -> Cut {
        let mut said = tables.said();
        match self.other_answer(tables, &said, sound) {
            Some(cut) => cut,
            None => {
                self.misread(tables, &mut said);
                tables.done(&said)
            }
        }
    }

    /// Faults in what is done after the cuts are read.
    fn other_answer(self, tables: &Tables, said: &Said, mut cut: Cut) -> Option<Cut> {
        let none = cut.state.end == End::None;
        match self {
            Fault::TablesChangeAtNone if none => tables.change(&mut cut, said),
            Fault::NoneMovesThePlace if none => {
                (cut.state.place, cut.state.mark) = (0, false);
            }
            Fault::NoneForgotten => cut.state.end = tables.state.end,
            Fault::NoneWithoutRoads if cut == taken(tables.state, &tables.must) => {
                cut.state.end = End::None;
            }
            Fault::RemovalsInRoads => cut.removed /= 2,
            Fault::OneDirectionStruck => {
                for &(i, j) in said.dropped.iter().filter(|_| cut.removed > 0) {
                    cut.state.rows[i - 1] |= 1 << (j - 1);
                }
                cut.removed /= 2;
            }
            Fault::PlaceKept => {
                let rows = cut.state.rows;
                cut.state = WorkState {
                    rows,
                    ..tables.state
                };
                cut.state.end = if none { End::None } else { tables.state.end };
            }
            Fault::OnlyMustReopens if cut.must != tables.must => {
                (cut.state.place, cut.state.mark) = (0, false);
                cut.state.end = End::Open;
            }
            Fault::LegComesBack if !none && !tables.table.has(1, 2) => {
                cut.state.rows[0] |= 2;
                cut.state.rows[1] |= 1;
            }
            Fault::MustNotGrown => cut.must = tables.must,
            Fault::MustOfThisCallOnly if !none => cut.must = rows_of(&said.forced),
            Fault::CutsOfWhatIsLeft if cut.removed > 0 => {
                let left = cut.state.table();
                let forced = Said::of(&splits::cuts(&left), &tables.given).forced;
                cut.must = together(&tables.must, &rows_of(&forced));
            }
            _ => return None,
        }
        Some(cut)
    }

    /// Faults in what the cuts are said to say.
    fn misread(self, tables: &Tables, said: &mut Said) {
        let given = &tables.given;
        let driven = |cut: &Roads| cut.intersection(given).count();
        let pairs = tables.cuts.iter().filter(|cut| cut.len() == 2);
        let triples = tables.cuts.iter().filter(|cut| cut.len() == 3);
        match self {
            Fault::MoreThanThreeMust => {
                let all_driven = |cut: &Roads| cut.len() > 3 && cut.is_subset(given);
                said.three_must |= tables.all_cuts().any(|cut| all_driven(&cut));
            }
            Fault::ThirdWithOneMust => {
                let single = triples.filter(|cut| driven(cut) == 1);
                let last = single.filter_map(|cut| (cut - given).pop_last());
                said.dropped.extend(last);
            }
            Fault::OthersOfMoreThanThree => {
                let two = tables.all_cuts().filter(|cut| driven(cut) == 2);
                said.dropped.extend(two.flat_map(|cut| &cut - given));
            }
            Fault::ThreeRoadsForced => said.forced.extend(triples.flatten()),
            Fault::NoRoadMissed => said.no_road = false,
            Fault::OneRoadForced => {
                let single = tables.cuts.iter().filter(|cut| cut.len() == 1);
                said.forced.extend(single.flatten());
                said.one_road = false;
            }
            Fault::ThreeMustMissed => said.three_must = false,
            Fault::BothForced => said.dropped = &said.dropped - &said.forced,
            Fault::BothDropped => said.forced = &said.forced - &said.dropped,
            Fault::OneOfTwoForced => {
                said.forced = pairs.filter_map(|cut| cut.first().copied()).collect();
            }
            Fault::RoadMissed => {
                said.dropped.pop_last();
            }
            Fault::SingleStationsOnly => {
                let around = |cut: &&Roads| {
                    let at =
                        |station: usize| cut.iter().all(|&(i, j)| i == station || j == station);
                    tables.table.stations().any(at)
                };
                let single = tables.cuts.iter().filter(around).cloned().collect();
                *said = Said::of(&single, given);
            }
            Fault::NewMustCounts => {
                let more = given | &said.forced;
                *said = Said {
                    forced: said.forced.clone(),
                    ..Said::of(&tables.cuts, &more)
                };
            }
            _ => {}
        }
    }
}
