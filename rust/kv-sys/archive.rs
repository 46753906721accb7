//! Which archive a build links, by cargo's own words for what it is built for.

/// What a processor has to have for `x86-64-v3`, of those words.
const V3: [&str; 9] = [
    "avx2",
    "bmi1",
    "bmi2",
    "cmpxchg16b",
    "f16c",
    "fma",
    "lzcnt",
    "movbe",
    "popcnt",
];

/// The name of the archive for an architecture, a system and a list of features with commas, where there is one.
pub fn archive_for(arch: &str, os: &str, features: &str) -> Option<&'static str> {
    let has = |wanted: &str| features.split(',').any(|feature| feature == wanted);
    match (arch, os) {
        ("x86_64", "linux") if V3.into_iter().all(has) => Some("x86-64-v3"),
        ("x86_64", "linux") => Some("x86-64"),
        ("aarch64", "linux") => Some("aarch64"),
        ("aarch64", "android") => Some("aarch64-android"),
        _ => None,
    }
}
