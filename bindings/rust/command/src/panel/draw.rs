//! The panel as lines in a frame: the card, one train, the notices, or the raw records behind a train.
use super::board::Board;
use super::view::{Page, View};
use mipsuqal::{time_of_day, Card, Feed, Leg, State, Status, Transit};

/// A line and its colour, by the number that a terminal has for it.
#[derive(Clone)]
pub struct Line {
    text: String,
    colour: Option<u8>,
}

const RED: u8 = 31;
const FAINT: u8 = 90;

fn plain(text: impl Into<String>) -> Line {
    Line { text: text.into(), colour: None }
}

fn coloured(colour: u8, text: impl Into<String>) -> Line {
    Line { text: text.into(), colour: Some(colour) }
}

fn status_colour(status: Status) -> u8 {
    match status {
        Status::Scheduled => 37,
        Status::OnTime => 32,
        Status::Disrupted => 35,
        Status::Delayed => 33,
        Status::Cancelled => RED,
    }
}

/// Columns and rows that there are for it.
pub type Size = (usize, usize);

/// The whole panel.
pub fn frame(board: &Board, view: &View, clock: i64, (columns, rows): Size) -> Vec<Line> {
    let inner = columns.saturating_sub(4).max(20);
    let rule = |left: &str, right: &str| coloured(FAINT, format!("{left}{}{right}", "─".repeat(inner + 2)));
    let inside =
        |lines: Vec<Line>| -> Vec<Line> { lines.into_iter().flat_map(|line| boxed(line, inner)).collect() };
    let foot = inside(foot(board, clock));
    let mut body = inside([head(board, clock, inner), page(board, view), vec![plain("")]].concat());
    let room = rows.saturating_sub(foot.len() + 4).max(3);
    if body.len() > room {
        body.truncate(room - 1);
        body.extend(inside(vec![coloured(FAINT, "..")]));
    }
    [vec![rule("┌", "┐")], body, vec![rule("├", "┤")], foot, vec![rule("└", "┘")]].concat()
}

/// The clock; the status; what is wrong with it, if anything is.
fn head(board: &Board, clock: i64, inner: usize) -> Vec<Line> {
    let mut lines = vec![coloured(FAINT, format!("{:>inner$}", time_of_day(clock)))];
    let faults: Vec<_> = board.faults().map(|why| coloured(RED, format!("OLD: {}", clean(why)))).collect();
    match &board.card {
        Some(card) => lines.push(status(card, !faults.is_empty())),
        None => lines.push(plain("  no card yet: put the journey's .card into the directory")),
    }
    lines.push(plain(""));
    lines.extend(faults);
    lines
}

/// An old card's status is never drawn as a fresh one's.
fn status(card: &Card, old: bool) -> Line {
    let (from, to) = (minutes(card.departure), minutes(card.arrival));
    let mark = if old { "OLD " } else { "" };
    let text = format!("  {mark}[ {} ]   {from} - {to}   {} min", card.status, card.duration / 60);
    coloured(if old { RED } else { status_colour(card.status) }, text)
}

/// Hours and minutes.
fn minutes(time: i64) -> String {
    time_of_day(time).chars().take(5).collect()
}

fn page(board: &Board, view: &View) -> Vec<Line> {
    let trains = board.trains();
    let train = trains.get(view.train).copied();
    match (&board.card, view.page) {
        (None, _) => Vec::new(),
        (Some(card), Page::Card) => journey(card, train),
        (Some(card), Page::Notices) => notices(card, "no notices"),
        (Some(_), Page::Train) => words(train.map_or("no train".into(), Transit::to_string)),
        (Some(_), Page::Records) => {
            words(train.map_or("no train".into(), |train| records(&board.state, train)))
        }
    }
}

fn words(text: String) -> Vec<Line> {
    text.lines().map(plain).collect()
}

fn records(state: &State, train: &Transit) -> String {
    format!("raw records behind {}\n{}", train.trip, state.behind(train))
}

fn notices(card: &Card, none: &str) -> Vec<Line> {
    if card.headers.is_empty() {
        return vec![coloured(FAINT, none)];
    }
    card.headers.iter().map(|header| coloured(35, format!("! {}", clean(header)))).collect()
}

fn journey(card: &Card, chosen: Option<&Transit>) -> Vec<Line> {
    let mut lines = if card.headers.is_empty() { Vec::new() } else { notices(card, "") };
    for leg in &card.legs {
        lines.push(match leg {
            Leg::Walk(walk) => {
                coloured(FAINT, format!("  walk {}", note(&walk.payload)).trim_end().to_string())
            }
            Leg::Transit(transit) => {
                train(transit, chosen.is_some_and(|chosen| std::ptr::eq(chosen, &**transit)))
            }
        });
    }
    lines
}

/// A payload that is a short text is one for the rider.
fn note(payload: &[u8]) -> &str {
    let short = |text: &&str| text.chars().count() <= 48 && !text.contains(char::is_control);
    std::str::from_utf8(payload).ok().filter(short).unwrap_or("")
}

/// One train in a line: where and when, with the delay.
fn train(leg: &Transit, chosen: bool) -> Line {
    let stop = |id: &str| id.rsplit_once(':').map_or(id, |(_, stop)| stop).to_string();
    let from = event(leg, leg.scheduled_departure, leg.realtime_departure, leg.departure_delay);
    let to = event(leg, leg.scheduled_arrival, leg.realtime_arrival, leg.arrival_delay);
    let mark = if chosen { ">" } else { " " };
    let line = format!("{} {}", leg.mode, leg.short_name);
    let text = format!("{mark} {line:<9} {:<6} {from:<13} - {:<6} {to}", stop(&leg.from), stop(&leg.to));
    match leg.cancelled {
        true => coloured(RED, format!("{text} CANCELLED")),
        false => plain(text),
    }
}

/// When a train leaves or comes. A cancelled one does neither: only what was scheduled stands there.
fn event(leg: &Transit, scheduled: i64, realtime: Option<i64>, delay: Option<i64>) -> String {
    let time = minutes(realtime.filter(|_| !leg.cancelled).unwrap_or(scheduled));
    match delay.filter(|_| !leg.cancelled) {
        Some(0) => format!("{time} on time"),
        Some(delay) => {
            let sign = if delay < 0 { '-' } else { '+' };
            format!("{time} {sign}{}:{:02}", delay.abs() / 60, delay.abs() % 60)
        }
        None => time,
    }
}

/// What each supplier last said, and the buttons.
fn foot(board: &Board, clock: i64) -> Vec<Line> {
    let mut lines: Vec<_> = board.state.feeds.iter().map(|feed| supplier(feed, clock)).collect();
    if lines.is_empty() {
        lines.push(plain("no supplier yet"));
    }
    lines.push(coloured(FAINT, "m mode   t trip   M, t, t raw records   q quit"));
    lines
}

/// After that many seconds a supplier has fallen silent.
const SILENT: i64 = 600;

fn supplier(feed: &Feed, clock: i64) -> Line {
    let Some(said) = feed.header_timestamp else { return plain(format!("{:<17}no time", feed.id)) };
    let age = clock.saturating_sub(said).max(0);
    let text = format!("{:<17}{}   {} min ago", feed.id, time_of_day(said), age / 60);
    match age > SILENT {
        true => coloured(RED, format!("{text}   SILENT")),
        false => plain(text),
    }
}

/// A supplier's text can't speak to the terminal.
fn clean(text: &str) -> String {
    text.replace(char::is_control, " ")
}

/// A line between the frame's sides, broken at blanks where it is too long.
fn boxed(line: Line, inner: usize) -> Vec<Line> {
    let mut rest: Vec<char> = line.text.chars().collect();
    let mut parts = Vec::new();
    while rest.len() > inner {
        let blank = rest[..=inner].iter().rposition(|letter| *letter == ' ').filter(|at| *at > inner / 2);
        let left = rest.split_off(blank.unwrap_or(inner));
        parts.push(std::mem::replace(&mut rest, left));
    }
    parts.push(rest);
    let text = |part: Vec<char>| format!("{:<inner$}", part.into_iter().collect::<String>());
    parts.into_iter().map(|part| sided(Line { text: text(part), colour: line.colour })).collect()
}

fn sided(line: Line) -> Line {
    Line { text: format!("│ {} │", line.text), ..line }
}

/// As a terminal takes it.
pub fn text(lines: &[Line], colour: bool) -> String {
    let painted = |line: &Line| match line.colour.filter(|_| colour) {
        Some(colour) => format!("\x1b[{colour}m{}\x1b[0m\n", line.text),
        None => format!("{}\n", line.text),
    };
    lines.iter().map(painted).collect()
}
