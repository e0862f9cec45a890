//! Document 02's C-11, judged by the public reference alone: prost reads a message by the call's own list of fields,
//! and a plain writer makes the sheet of what it gives.
pub mod rows;
#[path = "../../schema/feed_alerts.rs"]
mod schema;

use crate::form::{Form, One, Text};
use crate::papers::{Alert, AlertSheet};
use crate::questions::{self, yes, LONGEST_INPUT};
use prost::Message;
use schema::{EntitySelector, FeedMessage, TranslatedString};

/// The published length of the call's output.
pub const SHEET: usize = 1_048_576;

/// The number of the first no of questions 3 to 8, or the sheet.
pub fn sheet(feed: &[u8], message: &[u8]) -> Result<AlertSheet, u8> {
    questions::alert_message(feed, message)?;
    let sheet = said(feed, &read(message).expect("prost takes what document 01's reader takes"));
    // The texts are within question 5, so this is question 7.
    questions::alerts(&sheet)?;
    yes(sheet.written().len() <= SHEET, 8)?;
    Ok(sheet)
}

/// Whether prost takes the bytes.
pub fn is_read(message: &[u8]) -> bool {
    read(message).is_some()
}

/// Whether the original's `apply_service_alerts` has to give the same alerts, where it knows no other field of them:
/// each text has at most one translation, and that a text that isn't empty.
pub fn is_common(message: &[u8]) -> bool {
    let one = |text: &Option<TranslatedString>| {
        text.as_ref().is_none_or(|text| match &text.translation[..] {
            [] => true,
            [only] => only.text.as_ref().is_some_and(|text| !text.is_empty()),
            _ => false,
        })
    };
    read(message).is_some_and(|message| {
        let mut alerts = message.entity.iter().filter_map(|entity| entity.alert.as_ref());
        alerts.all(|alert| one(&alert.header_text) && one(&alert.description_text))
    })
}

fn read(message: &[u8]) -> Option<FeedMessage> {
    // A longer one is not prost's to judge, and none that is taken is.
    FeedMessage::decode(message).ok().filter(|_| message.len() <= LONGEST_INPUT)
}

/// The sheet of a message's values: deleted entities and empty ids are passed over.
fn said(feed: &[u8], message: &FeedMessage) -> AlertSheet {
    let left = message.entity.iter().filter(|entity| entity.is_deleted != Some(true));
    let alerts = left.filter_map(|entity| entity.alert.as_ref()).map(|alert| {
        let ids = |id: fn(&EntitySelector) -> Option<&Vec<u8>>| {
            let given = alert.informed_entity.iter().filter_map(id).filter(|id| !id.is_empty());
            given.map(|id| Text([feed, b":", id].concat())).collect()
        };
        Alert {
            header: first(alert.header_text.as_ref()),
            description: first(alert.description_text.as_ref()),
            cause: None,
            trips: ids(|selector| selector.trip.as_ref()?.trip_id.as_ref()),
            routes: ids(|selector| selector.route_id.as_ref()),
            stops: ids(|selector| selector.stop_id.as_ref()),
        }
    });
    AlertSheet { first: One, alerts: alerts.collect() }
}

/// The first translation counts: absent where there is none, or where it has no text.
fn first(text: Option<&TranslatedString>) -> Option<Text> {
    text?.translation.first()?.text.clone().map(Text)
}
