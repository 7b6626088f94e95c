//! Each cause for which a call is refused, and that a refused call changes nothing.
use renamer::{Client, Error, Floor, Grant, Kind, Lane, Quiet, Refused};

fn floor(quota: u64) -> Floor {
    Floor::open(Kind::Bitonic, 4, quota).unwrap()
}

/// What a lane says of itself.
fn seen(lane: &Lane) -> (u64, u64, u64, Vec<Grant>) {
    (lane.quota(), lane.inside(), lane.entered(), lane.grants())
}

#[test]
fn floors_that_are_not_opened() {
    for width in [0, 1, 3, 257, 512, u32::MAX] {
        assert_eq!(Floor::open(Kind::Tree, width, 1).err(), Some(Error::Width));
    }
    for quota in [renamer::MOST_CLIENTS + 1, u64::MAX] {
        assert_eq!(Floor::open(Kind::Tree, 2, quota).err(), Some(Error::Quota));
    }
    assert!(Floor::open(Kind::Tree, 2, renamer::MOST_CLIENTS).is_ok());
}

#[test]
fn clients_that_do_not_come_in() {
    let floor = floor(3);
    let mut lane = floor.lane(2).unwrap();
    assert_eq!(lane.name(7, 0), Ok(0));
    let before = seen(&lane);
    assert_eq!(lane.name(8, 4), Err(Error::NoSuchEntry));
    assert_eq!(lane.name(8, u64::MAX), Err(Error::NoSuchEntry));
    assert_eq!(lane.split(2).err(), Some(Error::QuotaTooSmall));
    assert_eq!(lane.reserve(1_048_577), Err(Error::Memory));
    assert_eq!(lane.copy_grants(1, &mut [Grant::default()]), Err(Error::Size));
    assert_eq!(seen(&lane), before);
    assert_eq!(lane.name(8, 3), Ok(1));
    assert_eq!(lane.name(9, 0), Err(Error::QuotaSpent));
    assert_eq!(floor.lane(2).err(), Some(Error::QuotaTooSmall));
}

#[test]
fn a_lane_that_is_dropped_is_missed_until_it_is_joined() {
    let floor = floor(2);
    let mut other = floor.lane(1).unwrap();
    assert_eq!(other.name(7, 0), Ok(0));
    drop(other);
    let refused = floor.into_lane().close().unwrap_err();
    assert_eq!(refused.error, Error::LanesMissing);
    assert_eq!(refused.to_string(), "other lanes have quota, names or clients of the floor (0 alive)");
    let mut lane = refused.value;
    assert_eq!(lane.quota(), 1);
    assert_eq!(lane.join(), Ok(()));
    assert_eq!(lane.join(), Err(Error::NothingBack));
    assert_eq!(lane.close().unwrap().holders(), [7]);
}

#[test]
fn a_close_says_how_many_lanes_are_alive() {
    let floor = floor(3);
    let lanes = [floor.lane(1).unwrap(), floor.lane(0).unwrap()];
    assert_eq!(floor.alive(), 2);
    let refused = floor.close().unwrap_err();
    assert_eq!((refused.error, refused.others), (Error::LanesMissing, Some(2)));
    assert!(refused.to_string().ends_with("(2 alive)"));
    drop(lanes);
    let mut lane = refused.value;
    lane.join_all().unwrap();
    assert!(lane.close().unwrap().is_empty());
}

#[test]
fn a_lane_with_clients_inside_is_not_handed_back_and_its_floor_not_closed() {
    let floor = floor(3);
    let mut lane = floor.lane(2).unwrap();
    lane.enter(7, 3).unwrap();
    assert_eq!(lane.name(8, 0), Err(Error::StillWalking));
    let lane = lane.hand_back().unwrap_err();
    assert_eq!((lane.error, lane.value.inside()), (Error::StillWalking, 1));
    let lane = lane.value.close().unwrap_err();
    assert_eq!((lane.error, lane.value.lowest()), (Error::StillWalking, Ok(3)));
    drop(lane);
    assert_eq!(floor.close().unwrap_err().error, Error::LanesMissing);
}

#[test]
fn lists_that_are_not_named() {
    let mut lane = floor(3).into_lane();
    let client = |client, entry| Client { client, entry };
    let mut grants = [Grant::default(); 2];
    assert_eq!(lane.name_many(&[client(7, 0); 4]), Err(Error::QuotaSpent));
    assert_eq!(lane.name_many(&[client(7, 0), client(8, 4)]), Err(Error::NoSuchEntry));
    assert_eq!(lane.name_many_into(&[client(7, 0)], &mut grants), Err(Error::Size));
    assert_eq!((lane.quota(), lane.grant_count(), grants), (3, 0, [Grant::default(); 2]));
    assert_eq!(lane.name_many(&[]), Ok(vec![]));
    assert_eq!(lane.name_many_into(&[client(7, 3), client(8, 0)], &mut grants), Ok(()));
    assert_eq!(lane.grants(), grants);
    lane.enter(9, 0).unwrap();
    assert_eq!(lane.name_many(&[]), Err(Error::StillWalking));
}

#[test]
fn lists_by_one_entry() {
    let mut lane = floor(3).into_lane();
    let mut names = [77; 2];
    assert_eq!(lane.name_list(&[7; 4], 0), Err(Error::QuotaSpent));
    assert_eq!(lane.name_list(&[], 4), Err(Error::NoSuchEntry));
    assert_eq!(lane.name_list_into(&[7], 4, &mut names), Err(Error::Size));
    assert_eq!((lane.quota(), lane.grant_count(), names), (3, 0, [77; 2]));
    assert_eq!(lane.name_list(&[], 3), Ok(vec![]));
    assert_eq!(lane.name_list_into(&[7, 8], 3, &mut names), Ok(()));
    for (client, name) in [7, 8].into_iter().zip(names) {
        assert!(lane.grants().iter().any(|grant| (grant.client, grant.name) == (client, name)));
    }
    lane.enter(9, 0).unwrap();
    assert_eq!(lane.name_list(&[], 3), Err(Error::StillWalking));
}

#[test]
fn steps_where_nobody_is() {
    let mut lane = floor(2).into_lane();
    assert_eq!(lane.lowest(), Err(Error::NobodyThere));
    assert_eq!(lane.enter(7, 4), Err(Error::NoSuchEntry));
    lane.enter(7, 1).unwrap();
    for wire in [0, 2, 1_000, u64::MAX] {
        assert_eq!(lane.step(wire), Err(Error::NobodyThere));
        assert_eq!(lane.sweep(wire), Err(Error::NobodyThere));
    }
    lane.enter(8, 1).unwrap();
    assert_eq!(lane.enter(9, 1), Err(Error::QuotaSpent));
    assert_eq!((lane.inside(), lane.lowest()), (2, Ok(1)));
}

#[test]
fn a_lane_outlives_its_floor_and_goes_from_thread_to_thread() {
    let mut lane = floor(2).lane(2).unwrap();
    let mut lane = std::thread::spawn(move || lane.name(7, 0).map(|_| lane)).join().unwrap().unwrap();
    assert_eq!(lane.name(8, 0), Ok(1));
}

#[test]
fn what_may_go_to_other_threads() {
    fn is_sent<T: Send>() {}
    fn is_shared<T: Sync>() {}
    is_sent::<Lane>();
    is_sent::<Quiet>();
    is_sent::<Floor>();
    is_shared::<Floor>();
    is_shared::<Lane>();
    is_shared::<Quiet>();
}

#[test]
fn an_error_of_a_close_is_any_error() {
    fn close(lane: Lane) -> Result<Quiet, Box<dyn std::error::Error + Send + Sync>> {
        Ok(lane.close()?)
    }
    let floor = floor(2);
    let _lane = floor.lane(1).unwrap();
    let refused = close(floor.into_lane()).unwrap_err();
    assert_eq!(refused.downcast_ref::<Refused<Lane>>().unwrap().error, Error::LanesMissing);
}

#[test]
fn threads_ask_one_lane_and_one_closed_floor() {
    let mut lane = floor(100).into_lane();
    (0..60).for_each(|client| assert_eq!(lane.name(client, client % 4), Ok(client)));
    (60..64).for_each(|client| lane.enter(client, 1).unwrap());
    let asked = seen(&lane);
    std::thread::scope(|scope| {
        (0..4).for_each(|_| drop(scope.spawn(|| (0..1_000).for_each(|_| assert_eq!(seen(&lane), asked)))));
    });
    while let Ok(wire) = lane.lowest() {
        lane.sweep(wire).unwrap();
    }
    let quiet = lane.close().unwrap();
    std::thread::scope(|scope| {
        (0..4).for_each(|_| drop(scope.spawn(|| (0..1_000).for_each(|_| assert_eq!(quiet.counts(), [16; 4])))));
    });
}
