//! Stands for rt/alert_text.rs, which is not supplied. `apply_service_alerts` alone calls it and says that French is
//! preferred; which other translation is taken it doesn't say. Answers that hang on that are not compared.
pub fn pick_translation(translations: &[(String, String)]) -> Option<String> {
    let french = translations.iter().find(|(language, _)| language.starts_with("fr"));
    french.or(translations.first()).map(|(_, text)| text.clone())
}
