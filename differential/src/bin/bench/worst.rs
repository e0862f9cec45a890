//! The worst legal input of each call at the published length, onto the largest state there is: how long it takes, and
//! what it uses of a stack of 64 KiB.
use crate::calls::{after, again};
use crate::clock::best;
use crate::index::largest;
use crate::inputs::*;
use crate::stack::{depth, STACK};
use differential::form::{Form, Text};
use differential::largest::feed;
use differential::layout::{held, incomplete_rest, Feed, Overlay};
use differential::messages::*;
use differential::panel::Call;
use differential::papers::{Alert, Vehicle};
use differential::states::States;
use differential::turns::OVERLAY;

/// No legal call takes longer, in milliseconds.
const LONGEST: f64 = 2e3;

/// Four largest feeds; the last of them has other trips or alerts.
fn state(change: impl Fn(&mut Feed)) -> Vec<u8> {
    let named = |number: u8| {
        let mut one = feed();
        one.id = Text([b"000000000000000", &[b'0' + number][..]].concat());
        if number == 3 {
            change(&mut one);
        }
        let id = one.id.clone();
        one.trips.iter_mut().for_each(|entry| entry.rest = incomplete_rest(&id, &entry.trip));
        one
    };
    Overlay { feeds: (0..4).map(named).collect(), ..Overlay::default() }.written()
}

const LAST: &str = "0000000000000003";

/// One more trip, or many of them, go in beside those that stay.
fn differential(message: &[u8]) -> Call {
    to_feed(LAST, &[header(&[incrementality(DIFFERENTIAL)]), message.to_vec()].concat())
}

/// As many alerts as a sheet has room for, each with as much as it may have.
fn longest_alerts() -> Call {
    let alert: Alert = feed().alerts.swap_remove(0);
    let each = alert.written().len();
    alerts_call(LAST, vec![alert; ((1 << 20) - 8) / each])
}

/// Vehicles at 1,024 other keys; all that were there are stale.
fn other_vehicles() -> Call {
    let other = |mut vehicle: Vehicle| {
        vehicle.key.0[0] = b'1';
        vehicle
    };
    vehicles_call(LAST, feed().vehicles.into_iter().map(other).collect(), 4_102_444_800)
}

/// The old vehicles, each updated long ago.
fn stale(feed: &mut Feed) {
    feed.vehicles.iter_mut().for_each(|vehicle| vehicle.updated = 0);
}

fn two_less(feed: &mut Feed) {
    feed.trips.truncate(2_046);
    feed.count = 2_046;
}

type Named = (&'static str, String, Call);

fn named(name: &'static str, what: &str, call: Call) -> Named {
    (name, what.into(), call)
}

/// The slowest message of 1 MiB that is taken, each as a FULL_DATASET and as DIFFERENTIAL.
fn slowest(states: &mut States) -> Named {
    let forms = |(what, message): (&str, Vec<u8>)| {
        let full = named("message", &format!("1 MiB, FULL: {what}"), to_feed(LAST, &message));
        [full, named("message", &format!("1 MiB, DIFFERENTIAL: {what}"), differential(&message))]
    };
    let timed = |named: Named| {
        let taken = states.call(&named.2) == 0;
        if taken {
            states.back();
        }
        (if taken { again(states, &named.2) } else { 0.0 }, named)
    };
    let all = largest().into_iter().flat_map(forms).map(timed);
    all.max_by(|one, other| one.0.total_cmp(&other.0)).expect("a message").1
}

/// A call's row; whether it is in time.
fn row(states: &mut States, (name, what, call): &Named) -> bool {
    let [took] = best(3, || {
        states.new().fill(1);
        [again(states, call)]
    });
    let used = depth(|| {
        again(states, call);
    });
    println!("| {name} | {what} | {took:.0} | {used} |");
    took <= LONGEST
}

/// Whether each call is in time.
pub fn worst() -> bool {
    println!(
        "| call | the worst legal input | ms | bytes of a stack of {} KiB |\n|---|---|---|---|",
        STACK >> 10
    );
    let mut states = States::of_panel(OVERLAY);
    let mut on = |state: Vec<u8>, calls: Vec<Named>| {
        states.put(&state);
        calls.iter().fold(true, |within, named| row(&mut states, named) & within)
    };
    let report = Call::Report { feed: LAST.into() };
    let mut within = on(
        state(|_| ()),
        vec![
            named("fresh", "over other bytes", Call::Fresh),
            named("alert sheet", "1 MiB, onto the largest state", longest_alerts()),
            named("report", "on the largest state", report),
        ],
    );
    let other = named("vehicle sheet", "1,024 at other keys, over as many stale ones", other_vehicles());
    within &= on(state(stale), vec![other]);
    let one = named("message", "DIFFERENTIAL, one trip, onto the largest state", differential(&one_trip()));
    within &= on(state(two_less), vec![one]);
    let slow = slowest(&mut states);
    within &= row(&mut states, &slow);
    states.put(&carded());
    within & row(&mut states, &named("card", "the worst card, on the largest state", worst_card()))
}

/// All ids that an alert may have, of which the last route alone is the leg's.
fn crowd(alert: &mut Alert) {
    let other = |number: usize| Text(format!("{FEED}:{number:0>59}").into());
    let others: Vec<_> = (0..32).map(other).collect();
    alert.routes.splice(0..0, others[..31].iter().cloned());
    (alert.trips, alert.stops) = (others.clone(), others);
}

/// The largest state, its last feed with the worst card's trips and alerts, each as large as it may be.
fn carded() -> Vec<u8> {
    let calls = [to_feed(FEED, &worst_trips()), alerts_call(FEED, worst_alerts())];
    let states = after(States::of(2 << 20), &calls);
    let mut one = held(states.overlay()).expect("an overlay").feeds.remove(0);
    let largest = feed();
    one.vehicles = largest.vehicles;
    one.trips.iter_mut().for_each(|entry| entry.trip.updates.clone_from(&largest.trips[0].trip.updates));
    one.alerts.iter_mut().for_each(crowd);
    let mut overlay = Overlay::of(&state(|_| ())).expect("a state");
    overlay.feeds[3] = one;
    overlay.written()
}
