// What prost-build makes of gtfs-realtime.proto (proto2): numbers and types by the public reference.
// A field that document 01 does not list stands at 500,000,000 and its number, which no message here
// uses: so prost skips it by its wire type, as document 01 has it, and decode.rs still finds its name.
#[derive(Clone, PartialEq, ::prost::Message)]
pub struct FeedMessage {
    #[prost(message, required, tag = "1")]
    pub header: FeedHeader,
    #[prost(message, repeated, tag = "2")]
    pub entity: Vec<FeedEntity>,
}
#[derive(Clone, PartialEq, ::prost::Message)]
pub struct FeedHeader {
    #[prost(string, required, tag = "500000001")]
    pub gtfs_realtime_version: String,
    #[prost(enumeration = "feed_header::Incrementality", optional, tag = "2", default = "FullDataset")]
    pub incrementality: Option<i32>,
    #[prost(uint64, optional, tag = "3")]
    pub timestamp: Option<u64>,
    #[prost(string, optional, tag = "500000004")]
    pub feed_version: Option<String>,
}
pub mod feed_header {
    #[derive(Clone, Copy, Debug, PartialEq, Eq, Hash, PartialOrd, Ord, ::prost::Enumeration)]
    #[repr(i32)]
    pub enum Incrementality { FullDataset = 0, Differential = 1 }
}
#[derive(Clone, PartialEq, ::prost::Message)]
pub struct FeedEntity {
    #[prost(string, required, tag = "500000001")]
    pub id: String,
    #[prost(bool, optional, tag = "2", default = "false")]
    pub is_deleted: Option<bool>,
    #[prost(message, optional, tag = "3")]
    pub trip_update: Option<TripUpdate>,
    #[prost(message, optional, tag = "500000004")]
    pub vehicle: Option<VehiclePosition>,
    #[prost(message, optional, tag = "500000005")]
    pub alert: Option<Alert>,
}
#[derive(Clone, PartialEq, ::prost::Message)]
pub struct TripUpdate {
    #[prost(message, required, tag = "1")]
    pub trip: TripDescriptor,
    #[prost(message, optional, tag = "500000003")]
    pub vehicle: Option<VehicleDescriptor>,
    #[prost(message, repeated, tag = "2")]
    pub stop_time_update: Vec<trip_update::StopTimeUpdate>,
    #[prost(uint64, optional, tag = "500000004")]
    pub timestamp: Option<u64>,
    #[prost(int32, optional, tag = "5")]
    pub delay: Option<i32>,
}
pub mod trip_update {
    #[derive(Clone, PartialEq, ::prost::Message)]
    pub struct StopTimeEvent {
        #[prost(int32, optional, tag = "1")]
        pub delay: Option<i32>,
        #[prost(int64, optional, tag = "2")]
        pub time: Option<i64>,
        #[prost(int32, optional, tag = "500000003")]
        pub uncertainty: Option<i32>,
    }
    #[derive(Clone, PartialEq, ::prost::Message)]
    pub struct StopTimeUpdate {
        #[prost(uint32, optional, tag = "1")]
        pub stop_sequence: Option<u32>,
        #[prost(string, optional, tag = "4")]
        pub stop_id: Option<String>,
        #[prost(message, optional, tag = "2")]
        pub arrival: Option<StopTimeEvent>,
        #[prost(message, optional, tag = "3")]
        pub departure: Option<StopTimeEvent>,
        #[prost(enumeration = "stop_time_update::ScheduleRelationship", optional, tag = "5", default = "Scheduled")]
        pub schedule_relationship: Option<i32>,
    }
    pub mod stop_time_update {
        #[derive(Clone, Copy, Debug, PartialEq, Eq, Hash, PartialOrd, Ord, ::prost::Enumeration)]
        #[repr(i32)]
        pub enum ScheduleRelationship { Scheduled = 0, Skipped = 1, NoData = 2, Unscheduled = 3 }
    }
}
#[derive(Clone, PartialEq, ::prost::Message)]
pub struct TripDescriptor {
    #[prost(string, optional, tag = "1")]
    pub trip_id: Option<String>,
    #[prost(string, optional, tag = "5")]
    pub route_id: Option<String>,
    #[prost(uint32, optional, tag = "6")]
    pub direction_id: Option<u32>,
    #[prost(string, optional, tag = "2")]
    pub start_time: Option<String>,
    #[prost(string, optional, tag = "3")]
    pub start_date: Option<String>,
    #[prost(enumeration = "trip_descriptor::ScheduleRelationship", optional, tag = "4")]
    pub schedule_relationship: Option<i32>,
}
pub mod trip_descriptor {
    #[derive(Clone, Copy, Debug, PartialEq, Eq, Hash, PartialOrd, Ord, ::prost::Enumeration)]
    #[repr(i32)]
    pub enum ScheduleRelationship {
        Scheduled = 0, Added = 1, Unscheduled = 2, Canceled = 3,
        Replacement = 5, Duplicated = 6, Deleted = 7, New = 8,
    }
}
#[derive(Clone, PartialEq, ::prost::Message)]
pub struct VehicleDescriptor {
    #[prost(string, optional, tag = "1")]
    pub id: Option<String>,
    #[prost(string, optional, tag = "2")]
    pub label: Option<String>,
    #[prost(string, optional, tag = "3")]
    pub license_plate: Option<String>,
}
// decode.rs copies it, as messages of numbers alone can be from prost-build 0.13 on.
#[derive(Clone, Copy, PartialEq, ::prost::Message)]
pub struct Position {
    #[prost(float, required, tag = "1")]
    pub latitude: f32,
    #[prost(float, required, tag = "2")]
    pub longitude: f32,
    #[prost(float, optional, tag = "3")]
    pub bearing: Option<f32>,
    #[prost(double, optional, tag = "4")]
    pub odometer: Option<f64>,
    #[prost(float, optional, tag = "5")]
    pub speed: Option<f32>,
}
#[derive(Clone, PartialEq, ::prost::Message)]
pub struct VehiclePosition {
    #[prost(message, optional, tag = "1")]
    pub trip: Option<TripDescriptor>,
    #[prost(message, optional, tag = "8")]
    pub vehicle: Option<VehicleDescriptor>,
    #[prost(message, optional, tag = "2")]
    pub position: Option<Position>,
    #[prost(uint32, optional, tag = "3")]
    pub current_stop_sequence: Option<u32>,
    #[prost(string, optional, tag = "7")]
    pub stop_id: Option<String>,
    #[prost(enumeration = "vehicle_position::VehicleStopStatus", optional, tag = "4", default = "InTransitTo")]
    pub current_status: Option<i32>,
    #[prost(uint64, optional, tag = "5")]
    pub timestamp: Option<u64>,
    #[prost(enumeration = "vehicle_position::CongestionLevel", optional, tag = "6")]
    pub congestion_level: Option<i32>,
    #[prost(enumeration = "vehicle_position::OccupancyStatus", optional, tag = "9")]
    pub occupancy_status: Option<i32>,
    #[prost(uint32, optional, tag = "10")]
    pub occupancy_percentage: Option<u32>,
    #[prost(message, repeated, tag = "11")]
    pub multi_carriage_details: Vec<vehicle_position::CarriageDetails>,
}
pub mod vehicle_position {
    #[derive(Clone, PartialEq, ::prost::Message)]
    pub struct CarriageDetails {
        #[prost(int32, optional, tag = "4", default = "-1")]
        pub occupancy_percentage: Option<i32>,
    }
    #[derive(Clone, Copy, Debug, PartialEq, Eq, Hash, PartialOrd, Ord, ::prost::Enumeration)]
    #[repr(i32)]
    pub enum VehicleStopStatus { IncomingAt = 0, StoppedAt = 1, InTransitTo = 2 }
    #[derive(Clone, Copy, Debug, PartialEq, Eq, Hash, PartialOrd, Ord, ::prost::Enumeration)]
    #[repr(i32)]
    pub enum CongestionLevel { Unknown = 0, RunningSmoothly = 1, StopAndGo = 2, Congestion = 3, Severe = 4 }
    #[derive(Clone, Copy, Debug, PartialEq, Eq, Hash, PartialOrd, Ord, ::prost::Enumeration)]
    #[repr(i32)]
    pub enum OccupancyStatus {
        Empty = 0, ManySeatsAvailable = 1, FewSeatsAvailable = 2, StandingRoomOnly = 3,
        CrushedStandingRoomOnly = 4, Full = 5, NotAcceptingPassengers = 6, NoDataAvailable = 7, NotBoardable = 8,
    }
    // The names are out of scope: apply_vehicle_positions alone asks for them.
    impl VehicleStopStatus { pub fn as_str_name(&self) -> &'static str { "" } }
    impl CongestionLevel { pub fn as_str_name(&self) -> &'static str { "" } }
    impl OccupancyStatus { pub fn as_str_name(&self) -> &'static str { "" } }
}
#[derive(Clone, PartialEq, ::prost::Message)]
pub struct TimeRange {
    #[prost(uint64, optional, tag = "1")]
    pub start: Option<u64>,
    #[prost(uint64, optional, tag = "2")]
    pub end: Option<u64>,
}
#[derive(Clone, PartialEq, ::prost::Message)]
pub struct EntitySelector {
    #[prost(string, optional, tag = "1")]
    pub agency_id: Option<String>,
    #[prost(string, optional, tag = "2")]
    pub route_id: Option<String>,
    #[prost(int32, optional, tag = "3")]
    pub route_type: Option<i32>,
    #[prost(message, optional, tag = "4")]
    pub trip: Option<TripDescriptor>,
    #[prost(string, optional, tag = "5")]
    pub stop_id: Option<String>,
    #[prost(uint32, optional, tag = "6")]
    pub direction_id: Option<u32>,
}
#[derive(Clone, PartialEq, ::prost::Message)]
pub struct TranslatedString {
    #[prost(message, repeated, tag = "1")]
    pub translation: Vec<translated_string::Translation>,
}
pub mod translated_string {
    #[derive(Clone, PartialEq, ::prost::Message)]
    pub struct Translation {
        #[prost(string, required, tag = "1")]
        pub text: String,
        #[prost(string, optional, tag = "2")]
        pub language: Option<String>,
    }
}
#[derive(Clone, PartialEq, ::prost::Message)]
pub struct Alert {
    #[prost(message, repeated, tag = "1")]
    pub active_period: Vec<TimeRange>,
    #[prost(message, repeated, tag = "5")]
    pub informed_entity: Vec<EntitySelector>,
    #[prost(enumeration = "alert::Cause", optional, tag = "6", default = "UnknownCause")]
    pub cause: Option<i32>,
    #[prost(enumeration = "alert::Effect", optional, tag = "7", default = "UnknownEffect")]
    pub effect: Option<i32>,
    #[prost(message, optional, tag = "8")]
    pub url: Option<TranslatedString>,
    #[prost(message, optional, tag = "10")]
    pub header_text: Option<TranslatedString>,
    #[prost(message, optional, tag = "11")]
    pub description_text: Option<TranslatedString>,
    #[prost(enumeration = "alert::SeverityLevel", optional, tag = "14", default = "UnknownSeverity")]
    pub severity_level: Option<i32>,
}
pub mod alert {
    #[derive(Clone, Copy, Debug, PartialEq, Eq, Hash, PartialOrd, Ord, ::prost::Enumeration)]
    #[repr(i32)]
    pub enum Cause {
        UnknownCause = 1, OtherCause = 2, TechnicalProblem = 3, Strike = 4, Demonstration = 5, Accident = 6,
        Holiday = 7, Weather = 8, Maintenance = 9, Construction = 10, PoliceActivity = 11, MedicalEmergency = 12,
    }
    #[derive(Clone, Copy, Debug, PartialEq, Eq, Hash, PartialOrd, Ord, ::prost::Enumeration)]
    #[repr(i32)]
    pub enum Effect {
        NoService = 1, ReducedService = 2, SignificantDelays = 3, Detour = 4, AdditionalService = 5,
        ModifiedService = 6, OtherEffect = 7, UnknownEffect = 8, StopMoved = 9, NoEffect = 10, AccessibilityIssue = 11,
    }
    #[derive(Clone, Copy, Debug, PartialEq, Eq, Hash, PartialOrd, Ord, ::prost::Enumeration)]
    #[repr(i32)]
    pub enum SeverityLevel { UnknownSeverity = 1, Info = 2, Warning = 3, Severe = 4 }
    impl Cause { pub fn as_str_name(&self) -> &'static str { "" } }
    impl Effect { pub fn as_str_name(&self) -> &'static str { "" } }
}
