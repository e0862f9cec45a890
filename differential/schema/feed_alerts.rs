// What prost-build makes of the fields that document 02 lists for alerts (C-11), and of no others: numbers and types by
// the public reference. Texts are bytes, so that question 5 judges them and not prost.
#[derive(Clone, PartialEq, ::prost::Message)]
pub struct FeedMessage {
    #[prost(message, repeated, tag = "2")]
    pub entity: Vec<FeedEntity>,
}
#[derive(Clone, PartialEq, ::prost::Message)]
pub struct FeedEntity {
    #[prost(bool, optional, tag = "2")]
    pub is_deleted: Option<bool>,
    #[prost(message, optional, tag = "5")]
    pub alert: Option<Alert>,
}
#[derive(Clone, PartialEq, ::prost::Message)]
pub struct Alert {
    #[prost(message, repeated, tag = "5")]
    pub informed_entity: Vec<EntitySelector>,
    #[prost(message, optional, tag = "10")]
    pub header_text: Option<TranslatedString>,
    #[prost(message, optional, tag = "11")]
    pub description_text: Option<TranslatedString>,
}
#[derive(Clone, PartialEq, ::prost::Message)]
pub struct EntitySelector {
    #[prost(bytes = "vec", optional, tag = "2")]
    pub route_id: Option<Vec<u8>>,
    #[prost(message, optional, tag = "4")]
    pub trip: Option<TripDescriptor>,
    #[prost(bytes = "vec", optional, tag = "5")]
    pub stop_id: Option<Vec<u8>>,
}
#[derive(Clone, PartialEq, ::prost::Message)]
pub struct TripDescriptor {
    #[prost(bytes = "vec", optional, tag = "1")]
    pub trip_id: Option<Vec<u8>>,
}
#[derive(Clone, PartialEq, ::prost::Message)]
pub struct TranslatedString {
    #[prost(message, repeated, tag = "1")]
    pub translation: Vec<Translation>,
}
#[derive(Clone, PartialEq, ::prost::Message)]
pub struct Translation {
    #[prost(bytes = "vec", optional, tag = "1")]
    pub text: Option<Vec<u8>>,
}
