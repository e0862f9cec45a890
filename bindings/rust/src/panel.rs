//! A panel: two overlays that take turns, and the calls on them.
use crate::calls::{self, Kind, Work, REPORT};
use crate::card::Card;
use crate::form::{Form, FormError};
use crate::overlay::{zeroed, InMemory, Overlays};
use crate::refusal::Refusal;
use crate::report::Report;
use crate::sheets::{AlertSheet, VehicleSheet};
use crate::state::State;

/// A panel's state and its calls. A refused call changes nothing, and answers a [`Refusal`].
///
/// ```
/// use mipsuqal::{Card, Form, Panel, Status};
/// # let data = concat!(env!("CARGO_MANIFEST_DIR"), "/../../crates/ride/data");
/// # let file = |name: &str| std::fs::read(format!("{data}/{name}")).unwrap();
/// let mut panel = Panel::new();
/// panel.message("north", &file("north-1.pb"))?;
/// panel.message("city", &file("city-1.pb"))?;
/// let journey = Card::decode(&file("journey.card"))?;
/// let card = panel.card(&journey)?;
/// assert_eq!(card.status, Status::OnTime);
/// assert_eq!(panel.report("north")?.trip_update_count, 1);
/// # Ok::<(), Box<dyn std::error::Error>>(())
/// ```
///
/// A damaged message is refused, and the card is as it was before:
///
/// ```
/// use mipsuqal::{Panel, Refusal};
/// # let data = concat!(env!("CARGO_MANIFEST_DIR"), "/../../crates/ride/data");
/// # let damaged = std::fs::read(format!("{data}/north-3.pb")).unwrap();
/// let mut panel = Panel::new();
/// let refusal = panel.message("north", &damaged).unwrap_err();
/// assert_eq!(refusal, Refusal::BrokenForm);
/// println!("{refusal}; {}", refusal.advice());
/// ```
pub struct Panel<O = InMemory> {
    overlays: O,
    work: Box<Work>,
}

impl Panel {
    /// A fresh panel in memory: no feeds, version 0.
    pub fn new() -> Panel {
        let mut panel = Panel::over(InMemory::new());
        panel.fresh();
        panel
    }
}

impl Default for Panel {
    fn default() -> Self {
        Panel::new()
    }
}

impl<O: Overlays> Panel<O> {
    /// A panel over overlays of one's own. Where the one that counts is no overlay, every call but
    /// [`Panel::fresh`] answers [`Refusal::NoOverlay`].
    pub fn over(overlays: O) -> Panel<O> {
        Panel { overlays, work: zeroed() }
    }

    pub fn overlays(&self) -> &O {
        &self.overlays
    }

    pub fn overlays_mut(&mut self) -> &mut O {
        &mut self.overlays
    }

    /// Starts anew: no feeds, version 0.
    pub fn fresh(&mut self) {
        calls::fresh(self.overlays.both().1).expect("a fresh call asks for the length alone");
        self.overlays.turn();
    }

    /// A supplier's GTFS Realtime message.
    pub fn message(&mut self, feed: &str, message: &[u8]) -> Result<(), Refusal> {
        let (old, new) = self.overlays.both();
        calls::message(old, feed, message, new, &mut self.work)?;
        self.overlays.turn();
        Ok(())
    }

    /// An alert sheet replaces the feed's alerts.
    ///
    /// ```
    /// use mipsuqal::{Alert, AlertSheet, Panel};
    /// let alert = Alert { header: Some("Line B: slow".into()), routes: vec!["B".into()], ..Alert::default() };
    /// let mut panel = Panel::new();
    /// panel.alert_sheet("city", &AlertSheet { alerts: vec![alert] })?;
    /// assert_eq!(panel.state()?.feeds[0].alerts[0].routes, ["B"]);
    /// # Ok::<(), Box<dyn std::error::Error>>(())
    /// ```
    pub fn alert_sheet(&mut self, feed: &str, sheet: &AlertSheet) -> Result<(), Refusal> {
        self.alert_sheet_bytes(feed, &sheet.encode())
    }

    /// The same with the sheet in document 01's bytes.
    pub fn alert_sheet_bytes(&mut self, feed: &str, sheet: &[u8]) -> Result<(), Refusal> {
        let (old, new) = self.overlays.both();
        calls::alert_sheet(old, feed, sheet, new)?;
        self.overlays.turn();
        Ok(())
    }

    /// The alerts of a supplier's GTFS Realtime message replace the feed's: [`crate::feed_alerts`], and its sheet
    /// sent in.
    ///
    /// ```
    /// use mipsuqal::{Card, Form, Panel, Status};
    /// # let data = concat!(env!("CARGO_MANIFEST_DIR"), "/../../crates/ride/data");
    /// # let file = |name: &str| std::fs::read(format!("{data}/{name}")).unwrap();
    /// let mut panel = Panel::new();
    /// panel.alert_message("city", &file("city.alerts.pb"))?;
    /// let card = panel.card(&Card::decode(&file("journey.card"))?)?;
    /// assert_eq!((card.status, card.headers[0].as_str()), (Status::Disrupted, "Line B: slow through Chatelet"));
    /// # Ok::<(), Box<dyn std::error::Error>>(())
    /// ```
    pub fn alert_message(&mut self, feed: &str, message: &[u8]) -> Result<(), Refusal> {
        self.alert_sheet_bytes(feed, &calls::feed_alerts(feed, message)?)
    }

    /// A vehicle sheet goes over the feed's vehicles; those updated before `clock` - 900 go. The clock is in seconds
    /// since 1970 UTC.
    pub fn vehicle_sheet(&mut self, feed: &str, sheet: &VehicleSheet, clock: i64) -> Result<(), Refusal> {
        self.vehicle_sheet_bytes(feed, &sheet.encode(), clock)
    }

    /// The same with the sheet in document 01's bytes.
    pub fn vehicle_sheet_bytes(&mut self, feed: &str, sheet: &[u8], clock: i64) -> Result<(), Refusal> {
        let (old, new) = self.overlays.both();
        calls::vehicle_sheet(old, feed, sheet, clock, new)?;
        self.overlays.turn();
        Ok(())
    }

    /// The card finished by what the suppliers said.
    pub fn card(&mut self, card: &Card) -> Result<Card, Refusal> {
        let finished = self.finished(&card.encode())?;
        Ok(Card::decode(finished).expect("a finished card has its form"))
    }

    /// The same in document 01's bytes, without the zeros behind.
    pub fn card_bytes(&mut self, card: &[u8]) -> Result<Vec<u8>, Refusal> {
        self.finished(card).map(<[u8]>::to_vec)
    }

    /// The finished card's bytes, cut at its end.
    fn finished(&mut self, card: &[u8]) -> Result<&[u8], Refusal> {
        calls::card(self.overlays.current(), card, &mut self.work)?;
        let end = calls::end(Kind::Card, &self.work.card);
        Ok(&self.work.card[..end])
    }

    /// What there is of a feed.
    pub fn report(&self, feed: &str) -> Result<Report, Refusal> {
        let mut out = [0; REPORT];
        calls::report(self.overlays.current(), feed, &mut out)?;
        Ok(Report::of_bytes(&out))
    }

    /// All raw records. Bytes that are no overlay have no state.
    pub fn state(&self) -> Result<State, FormError> {
        Ok(State::decode_front(self.overlays.current().bytes())?.0)
    }
}
