//! Each machine that there is an archive for links its own, and no other machine any.
#[path = "../archive.rs"]
mod archive;

use archive::archive_for;

/// What cargo lists for `x86-64`, and what it adds for `x86-64-v3`.
const X86: &str = "fxsr,sse,sse2,x87";
const V3: [&str; 10] = [
    "avx",
    "avx2",
    "bmi1",
    "bmi2",
    "cmpxchg16b",
    "f16c",
    "fma",
    "lzcnt",
    "movbe",
    "popcnt",
];

/// The features of an x86-64 that has those of v3 that are kept.
fn x86_with(kept: impl Fn(&str) -> bool) -> String {
    let more = V3.into_iter().filter(|feature| kept(feature));
    [X86].into_iter().chain(more).collect::<Vec<_>>().join(",")
}

#[test]
fn each_machine_has_its_archive() {
    for (arch, os, features, wanted) in [
        ("x86_64", "linux", X86, "x86-64"),
        ("x86_64", "linux", "", "x86-64"),
        ("x86_64", "linux", &x86_with(|_| true), "x86-64-v3"),
        ("aarch64", "linux", "neon", "aarch64"),
        ("aarch64", "android", "neon", "aarch64-android"),
    ] {
        let archive = archive_for(arch, os, features);
        assert_eq!(archive, Some(wanted), "{arch} {os} {features}");
    }
}

#[test]
fn a_lesser_machine_is_not_taken_for_v3() {
    for missing in V3.into_iter().skip(1) {
        let features = x86_with(|feature| feature != missing);
        assert_eq!(archive_for("x86_64", "linux", &features), Some("x86-64"));
    }
    // A feature whose name only begins like one.
    let features = x86_with(|feature| feature != "fma") + ",fma4";
    assert_eq!(archive_for("x86_64", "linux", &features), Some("x86-64"));
}

#[test]
fn no_other_machine_has_one() {
    for (arch, os) in [
        ("x86_64", "windows"),
        ("x86_64", "android"),
        ("aarch64", "macos"),
        ("arm", "linux"),
        ("", ""),
    ] {
        assert_eq!(archive_for(arch, os, "avx2,bmi2,fma"), None, "{arch} {os}");
    }
}
