//! A group is held to the judges that it names.

use oracle::groups::{Clean, GROUPS, Group, Met, Place, field_kinds, move_kinds, position_kinds, way_kinds};
use oracle::judges::Judge;
use oracle::model::{CLOSED, Model};
use oracle::subject::Call;

fn names(name: &str) -> Vec<&'static str> {
    Group::named(name).judges().into_iter().map(Judge::name).collect()
}

#[test]
fn groups_name_their_judges() {
    assert_eq!(names("line"), ["published Rust"]);
    assert_eq!(names("line end"), ["altered Rust"]);
    assert_eq!(names("init"), ["altered Rust", "table of refusals", "model"]);
    assert_eq!(names("build started"), ["published Rust", "counted copy", "model"]);
    assert_eq!(names("build, positions"), ["published Rust", "counted copy", "model"]);
    assert_eq!(names("flow new"), ["published Rust"]);
    assert_eq!(names("flow build"), ["altered Rust"]);
    assert_eq!(names("flow new and build"), ["published Rust", "altered Rust"]);
    assert_eq!(names("sector"), ["altered Rust", "counted copy", "table of refusals", "model"]);
    assert_eq!(names("leg"), ["altered Rust", "table of refusals", "model"]);
    assert_eq!(names("leg, gaps"), ["altered Rust", "model"]);
    assert_eq!(names("leg, on walls"), ["altered Rust", "table of refusals", "model"]);
    assert_eq!(names("journey"), ["altered Rust", "model"]);
    let all = ["published Rust", "altered Rust", "counted copy", "table of refusals", "model"];
    assert_eq!(names("sector without sight"), all);
    assert_eq!(names("sector without sight refusals"), all);
    assert_eq!(names("leg without sight"), ["published Rust", "altered Rust", "table of refusals", "model"]);
    assert_eq!(names("leg without sight, gaps"), ["published Rust", "altered Rust", "model"]);
    assert_eq!(names("journey without sight"), ["published Rust", "altered Rust", "model"]);
    assert_eq!(names("file read"), ["model"]);
    assert_eq!(names("practice"), ["model"]);
    assert_eq!(names("bounds"), ["model"]);
    assert_eq!(names("bounds refusals"), ["table of refusals", "model"]);
    assert_eq!(names("window costs"), ["model"]);
    assert_eq!(names("window costs refusals"), ["table of refusals", "model"]);
    assert_eq!(names("window tour"), ["model"]);
    assert_eq!(names("window tour refusals"), ["table of refusals", "model"]);
    assert_eq!(names("arrivals"), ["model"]);
    assert_eq!(names("arrivals refusals"), ["table of refusals", "model"]);
    assert_eq!(names("move"), ["model"]);
    assert_eq!(names("way refusals"), ["table of refusals", "model"]);
    assert_eq!(names("leg field"), ["altered Rust", "counted copy", "table of refusals", "model"]);
    assert_eq!(names("leg field, gaps"), ["altered Rust", "counted copy", "model"]);
    assert_eq!(names("leg field without sight"), all);
    assert_eq!(names("leg refusals"), ["altered Rust", "table of refusals", "model"]);
    assert_eq!(names("build refusals"), ["published Rust", "counted copy", "table of refusals", "model"]);
}

#[test]
fn the_judges_that_decide_are_those_that_are_named() {
    let fields = ["leg field", "leg field without sight"];
    let others = ["readers", "init", "sector", "leg", "leg, on walls", "sector without sight", "leg without sight"];
    let others = [&others[..], &fields].concat();
    for group in GROUPS.iter().filter(|group| group.name.ends_with("refusals") || others.contains(&group.name)) {
        let clean = group.run(&Model::PLAIN, 5, 20_000).unwrap_or_else(|_| panic!("{} differs", group.name));
        assert_eq!(group.unmet(&clean), None);
        // The table, one copy of the Rust or the model decides each input, and never two of them, but for positions, which
        // are the model's in every field that the Rust answers, and for goal's sectors without sight, in which the published
        // Rust decides beside the altered one. 15 is the model's.
        let judged = |judge: Judge| clean.judged[judge as usize];
        let without_sight = group.name.contains("without sight");
        let published = if without_sight { 0 } else { judged(Judge::Published) };
        let apart = published + judged(Judge::Altered) + judged(Judge::Table);
        let with_field = [Call::Init, Call::Build, Call::Sector, Call::SectorWithoutSight];
        let fields = with_field.contains(&group.needs[0]);
        let goals = if fields { clean.without_sight.goals } else { judged(Judge::Altered) };
        // Of a leg's fields the first is the goal's, and the positions of all are the model's too.
        let leg_fields = [Call::LegField, Call::LegFieldWithoutSight].contains(&group.needs[0]);
        let published = judged(Judge::Published);
        assert!(!without_sight || published == goals || (leg_fields && 0 < published && published < goals));
        let alone = match fields {
            true => 0,
            false if leg_fields => judged(Judge::Model) - judged(Judge::Altered),
            false => judged(Judge::Model),
        };
        assert_eq!(apart + alone, clean.inputs);
        assert!(!fields || judged(Judge::Model) == clean.numbers[0]);
        let closed = clean.numbers[usize::from(CLOSED)];
        assert_eq!(judged(Judge::Table), clean.inputs - clean.numbers[0] - closed);
        assert!(judged(Judge::Model) >= closed);
    }
}

#[test]
fn fields_with_positions_must_meet_each_kind() {
    let group = Group::named("build, positions");
    let whole = group.run(&Model::PLAIN, 7, 8_000).unwrap_or_else(|_| panic!("the model differs from the Rust"));
    assert_eq!(group.unmet(&whole), None);
    for met in position_kinds() {
        let mut clean = whole.clone();
        clean.met.remove(&met);
        assert!(group.unmet(&clean).expect("a fault").contains(&format!("did not meet `{met}` in")));
    }
}

#[test]
fn another_judge_or_none_is_seen() {
    let mut clean = Clean { inputs: 3, ..Clean::default() };
    clean.numbers[0] = 3;
    let fault = |clean: &Clean| Group::named("line").unmet(clean).expect("a fault");
    assert!(fault(&clean).contains("published Rust: the group names it, and it decided nothing"));
    clean.judged = [3, 0, 0, 0, 1];
    assert!(fault(&clean).contains("model: the group does not name it"));
    clean.numbers[0] = 0;
    assert!(fault(&clean).contains("did not reach number 0"));
}

#[test]
fn legs_with_gaps_must_meet_each_kind() {
    ["leg, gaps", "leg without sight, gaps"].into_iter().for_each(gaps_must_be_met);
}

fn gaps_must_be_met(name: &str) {
    let group = Group::named(name);
    let whole = group.run(&Model::PLAIN, 6, 20_000).unwrap_or_else(|_| panic!("the model differs from the Rust"));
    assert_eq!(group.unmet(&whole), None);
    assert_eq!(whole.met.keys().filter(|met| matches!(met, Met::Closed { .. })).count(), 120);
    let lacking = [Met::GapBetween, Met::OneCell, Met::OneCellClosed, Met::Closed { steps: 16, at: 16 }];
    for met in lacking {
        let mut clean = whole.clone();
        clean.met.remove(&met);
        assert!(group.unmet(&clean).expect("a fault").contains(&format!("did not meet `{met}` in")));
    }
    let mut clean = whole.clone();
    clean.numbers[usize::from(CLOSED)] = 0;
    assert!(group.unmet(&clean).expect("a fault").contains("did not reach number 15"));
}

#[test]
fn legs_on_walls_must_meet_each_kind() {
    ["leg, on walls", "leg without sight, on walls"].into_iter().for_each(walls_must_be_met);
}

fn walls_must_be_met(name: &str) {
    let group = Group::named(name);
    let whole = group.run(&Model::PLAIN, 6, 20_000).unwrap_or_else(|_| panic!("the model differs from the Rust"));
    assert_eq!(group.unmet(&whole), None);
    assert_eq!(whole.met.keys().filter(|met| matches!(met, Met::OnWall { .. })).count(), 136);
    let lacking = [Met::InsteadOf(9), Met::InsteadOf(CLOSED), Met::OneWall(Place::Between), Met::OrderFirst];
    for met in lacking.into_iter().chain([Met::UnreadWall, Met::OnWall { steps: 16, at: 1 }]) {
        let mut clean = whole.clone();
        clean.met.remove(&met);
        assert!(group.unmet(&clean).expect("a fault").contains(&format!("did not meet `{met}` in")));
    }
}

/// Fields of a leg's steps must have met each place and 15 on each side of it, and ways 6,399 moves and a circle.
#[test]
fn fields_and_ways_must_meet_each_kind() {
    let kinds = [("leg field, gaps", field_kinds()), ("way", way_kinds()), ("move", move_kinds())];
    for (name, kinds) in kinds {
        let group = Group::named(name);
        let whole = group.run(&Model::PLAIN, 6, 20_000).unwrap_or_else(|_| panic!("the model differs from itself"));
        assert_eq!(group.unmet(&whole), None);
        for met in kinds {
            let mut clean = whole.clone();
            clean.met.remove(&met);
            assert!(group.unmet(&clean).expect("a fault").contains(&format!("did not meet `{met}` in")));
        }
    }
}
