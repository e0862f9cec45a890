//! A door to functions that journey.rs keeps to itself: mounted below it, it only hands them on.

pub fn product_code_token(raw: &str) -> Option<String> {
    super::product_code_token(raw)
}

pub fn idfm_product_to_short(code: &str) -> Option<String> {
    super::idfm_product_to_short(code)
}

pub fn route_refs_match(leg_route_id: &str, informed: &str) -> bool {
    super::route_refs_match(leg_route_id, informed)
}

pub fn is_road_traffic_alert(alert: &crate::rt::overlay::AlertRt) -> bool {
    super::is_road_traffic_alert(alert)
}

pub fn is_rail_like_mode(mode: &str) -> bool {
    super::is_rail_like_mode(mode)
}

pub fn alert_text_compatible_with_leg(alert: &crate::rt::overlay::AlertRt, route_short: &str) -> bool {
    super::alert_text_compatible_with_leg(alert, route_short, "")
}

pub fn fold_alert_blob(text: &str) -> String {
    super::fold_alert_blob(text)
}

pub fn commercial_lines_in_text(blob: &str) -> Vec<String> {
    super::commercial_lines_in_text(blob)
}

pub fn is_secondary_line_context(blob: &str, short: &str) -> bool {
    super::is_secondary_line_context(blob, short)
}

pub fn is_primary_context(blob: &str, short: &str) -> bool {
    super::is_primary_context(blob, short)
}
