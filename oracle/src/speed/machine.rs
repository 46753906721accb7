//! What is measured, and what on.
use crate::ARCHIVE;
use std::{fs, thread};

/// The processors of Arm's own that are met most, by their part.
const ARM: &[(&str, &str)] = &[
    ("0xd03", "Cortex-A53"),
    ("0xd05", "Cortex-A55"),
    ("0xd07", "Cortex-A57"),
    ("0xd08", "Cortex-A72"),
    ("0xd0b", "Cortex-A76"),
    ("0xd0c", "Neoverse-N1"),
    ("0xd40", "Neoverse-V1"),
    ("0xd41", "Cortex-A78"),
    ("0xd49", "Neoverse-N2"),
    ("0xd4f", "Neoverse-V2"),
];

/// The processor, the cores that may be used, the archive and the compiler, in one line.
pub fn line() -> String {
    let told = fs::read_to_string("/proc/cpuinfo").unwrap_or_default();
    let cores = match thread::available_parallelism() {
        Ok(cores) => cores.to_string(),
        Err(_) => "unknown".to_string(),
    };
    format!("{}, cores: {cores}, {}", model(&told), build())
}

/// The archive and the compiler: what a count of instructions depends on.
pub fn build() -> String {
    let compiler = option_env!("ORACLE_COMPILER").unwrap_or("rustc unknown");
    format!("archive {ARCHIVE}, {compiler}")
}

/// The first processor of `/proc/cpuinfo`, which names it on x86-64 and numbers it on Arm.
fn model(told: &str) -> String {
    let field = |wanted: &str| {
        let mut fields = told.lines().filter_map(|line| line.split_once(':'));
        let (_, value) = fields.find(|(name, _)| name.trim() == wanted)?;
        Some(value.trim())
    };
    if let Some(model) = field("model name") {
        return model.to_string();
    }
    match (field("CPU implementer"), field("CPU part")) {
        (Some(implementer), Some(part)) => numbered(implementer, part),
        _ => "processor unknown".to_string(),
    }
}

/// The name of a processor that is numbered, or its numbers.
fn numbered(implementer: &str, part: &str) -> String {
    let known = ARM.iter().find(|(number, _)| *number == part);
    match (implementer, known) {
        ("0x41", Some((_, name))) => name.to_string(),
        _ => format!("implementer {implementer} part {part}"),
    }
}

#[cfg(test)]
mod tests {
    use super::*;

    /// What an Arm machine tells of one core.
    fn arm(implementer: &str, part: &str) -> String {
        format!(
            "processor\t: 0\nBogoMIPS\t: 2100.00\nCPU implementer\t: {implementer}\nCPU architecture: 8\n\
             CPU variant\t: 0x1\nCPU part\t: {part}\nCPU revision\t: 1\n\n"
        )
    }

    #[test]
    fn the_model_is_the_first_that_is_named() {
        let told = "processor\t: 0\nmodel\t\t: 106\nmodel name\t: A: B\nmodel name\t: C\n";
        assert_eq!(model(told), "A: B");
        assert_eq!(model("processor\t: 0\n"), "processor unknown");
        assert_eq!(model(""), "processor unknown");
    }

    #[test]
    fn a_part_of_arms_own_has_a_name() {
        assert_eq!(model(&arm("0x41", "0xd40")), "Neoverse-V1");
        assert_eq!(model(&arm("0x41", "0xd08")), "Cortex-A72");
        let two = arm("0x41", "0xd0b") + &arm("0x41", "0xd05");
        assert_eq!(model(&two), "Cortex-A76");
    }

    #[test]
    fn a_part_that_is_not_known_is_numbered() {
        let wanted = "implementer 0x41 part 0xfff";
        assert_eq!(model(&arm("0x41", "0xfff")), wanted);
        let wanted = "implementer 0x61 part 0xd40";
        assert_eq!(model(&arm("0x61", "0xd40")), wanted);
        assert_eq!(model("CPU part\t: 0xd40\n"), "processor unknown");
    }

    #[test]
    fn no_part_has_two_names() {
        for (i, (part, name)) in ARM.iter().enumerate() {
            let mut others = ARM[..i].iter();
            assert!(others.all(|other| other.0 != *part && other.1 != *name));
        }
    }

    #[test]
    fn the_line_ends_with_the_archive_and_the_compiler() {
        assert!(line().ends_with(&format!(", {}", build())));
        assert!(build().starts_with(&format!("archive {ARCHIVE}, rustc ")));
    }
}
