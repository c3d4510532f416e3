//! The texts of answers, printed again from their values alone.

use debctl::{
    AllExplained, Alternative, BuildReport, Change, ChangeKind, Explanation, HealthFault,
    HealthReport, InstallFault, InstallReason, InstallReport, NotInstallable, Package, Report,
    UnmetReport, Verdict, WitnessReport,
};

/// What has a text.
pub trait Printed {
    /// The text, from the values alone.
    fn printed(&self) -> String;
}

/// A group of alternatives.
pub fn group(alternatives: &[Alternative]) -> String {
    let texts: Vec<String> = alternatives.iter().map(Alternative::to_string).collect();
    texts.join(" | ")
}

fn verdict(verdict: Verdict) -> &'static str {
    match verdict {
        Verdict::Met => "met",
        Verdict::Unmet => "unmet",
        Verdict::Ignored => "ignored",
        _ => "unsure",
    }
}

/// The place of the file at the end of a line about a package, if it is of one of several.
fn file(it: Option<&Package>) -> String {
    let file = it.and_then(|it| it.file);
    file.map_or(String::new(), |file| format!(" @{file}"))
}

fn package(it: &Package) -> String {
    format!(
        "{} {} {} {}",
        it.number, it.name, it.version, it.architecture
    )
}

impl Printed for Report {
    fn printed(&self) -> String {
        let mut text = String::new();
        for group in &self.groups {
            text += &format!("{} {}\n", verdict(group.verdict), group.text);
            for it in &group.packages {
                text += &format!(" {}{}\n", package(it), file(Some(it)));
            }
            for it in &group.reasons {
                let of = it.package.as_ref();
                let of = of.map_or(String::new(), |it| package(it) + " ");
                let file = file(it.package.as_ref());
                text += &format!(" {}: {of}{}{file}\n", it.alternative, it.reason);
            }
        }
        text
    }
}

impl Printed for UnmetReport {
    fn printed(&self) -> String {
        let mut text = String::new();
        for it in &self.groups {
            text += &format!("{} {} {} ", verdict(it.verdict), it.number, it.package);
            text += &format!(
                "{} {} {} {}\n",
                it.version, it.architecture, it.field, it.group
            );
        }
        text
    }
}

impl Printed for HealthReport {
    fn printed(&self) -> String {
        let mut text = String::new();
        for it in &self.reasons {
            let (word, more) = match &it.fault {
                HealthFault::Unmet {
                    field,
                    group,
                    unsure,
                } => (
                    ["unmet", "unsure"][usize::from(*unsure)],
                    format!("{field} {group}"),
                ),
                HealthFault::Conflict {
                    field,
                    group,
                    by,
                    unsure,
                } => (
                    ["conflict", "unsure"][usize::from(*unsure)],
                    format!("{field} {group} by {}", package(by)),
                ),
                HealthFault::Duplicate { with } => (
                    "duplicate",
                    format!(
                        "with {} {} {}",
                        with.number, with.version, with.architecture
                    ),
                ),
                HealthFault::State { status } => ("state", status.clone()),
                _ => ("", String::new()),
            };
            text += &format!("{word} {} {more}\n", package(&it.package));
        }
        text
    }
}

/// The lines of packages that can't be installed, or of source packages that can't be built.
fn faults(packages: &[NotInstallable]) -> String {
    let mut text = String::new();
    for it in packages {
        let word = match it.fault {
            InstallFault::Uninstallable => "uninstallable",
            InstallFault::Unsure => "unsure",
            _ => "undecided",
        };
        text += &format!("{word} {}\n", package(&it.package));
        text.extend(it.reasons.iter().map(reason));
    }
    text
}

/// The line of a reason why a package can't be installed.
fn reason(reason: &InstallReason) -> String {
    match reason {
        InstallReason::Need {
            package: needing,
            group,
            candidates,
        } => {
            let numbers = candidates.iter().map(|it| format!(" {it}"));
            let numbers = numbers.reduce(|some, more| some + &more);
            let numbers = numbers.as_deref().unwrap_or(" none");
            format!(" {} needs {group}:{numbers}\n", package(needing))
        }
        InstallReason::Exclusion {
            package: by,
            excluded,
        } => format!(" {} excludes {}\n", package(by), package(excluded)),
        InstallReason::LeftOut { package: it } => format!(" {} is left out\n", package(it)),
        _ => String::new(),
    }
}

impl Printed for InstallReport {
    fn printed(&self) -> String {
        faults(&self.packages)
    }
}

impl Printed for WitnessReport {
    fn printed(&self) -> String {
        let set = self.packages.iter().map(|it| format!(" {}\n", package(it)));
        set.collect::<String>() + &faults(&self.not_installable)
    }
}

impl Printed for BuildReport {
    fn printed(&self) -> String {
        faults(&self.packages)
    }
}

/// The lines of a field, which are taken from the start of these if they are there.
fn lines_of(field: &str, before: &str, lines: &mut &[String]) -> String {
    let starts = |line: &String| {
        line.strip_prefix(field)
            .map_or(false, |it| it.starts_with(':'))
    };
    if !lines.first().map_or(false, starts) {
        return String::new();
    }
    let more = lines[1..]
        .iter()
        .take_while(|line| line.starts_with([' ', '\t']));
    let (taken, rest) = lines.split_at(1 + more.count());
    *lines = rest;
    taken
        .iter()
        .map(|line| format!("{before}{line}\n"))
        .collect()
}

impl Printed for Vec<Change> {
    fn printed(&self) -> String {
        let mut text = String::new();
        for it in self {
            let word = match it.kind {
                ChangeKind::Removed => "removed",
                ChangeKind::Changed => "changed",
                ChangeKind::Upgraded => "upgraded",
                ChangeKind::Downgraded => "downgraded",
                _ => "added",
            };
            text += &format!("{word} {} {}", it.number, it.package);
            let old = it
                .old_version
                .iter()
                .filter(|_| it.kind != ChangeKind::Changed);
            for version in old.chain(&it.new_version) {
                text += &format!(" {version}");
            }
            text += &format!(" {}", it.architecture);
            for field in &it.fields {
                text += &format!(" {field}");
            }
            text += "\n";
            let (mut old, mut new) = (&it.old[..], &it.new[..]);
            for field in &it.fields {
                text += &lines_of(field, " -", &mut old);
                text += &lines_of(field, " +", &mut new);
            }
            text.extend(old.iter().map(|line| format!(" -{line}\n")));
            text.extend(new.iter().map(|line| format!(" +{line}\n")));
        }
        text
    }
}

impl Printed for Explanation {
    fn printed(&self) -> String {
        let refusal = match (&self.refusal, self.passed) {
            (Some(refusal), _) => refusal,
            (None, Some(count)) => return format!("ok {count}\n"),
            (None, None) => return "ok\n".to_owned(),
        };
        let line = Some(refusal.line).filter(|line| *line > 0);
        let at = self.at.map(|(line, column)| format!("{line}:{column}"));
        let keys = [
            ("line", line.map(|it| it.to_string())),
            ("code", Some(refusal.code.number().to_string())),
            ("name", Some(refusal.code.to_string())),
            ("field", self.field.clone()),
            ("place", self.place.map(|it| it.to_string())),
            ("at", at),
            ("reason", self.reason.clone()),
            ("value", self.value.clone()),
            ("rule", self.rule.clone()),
            ("usually", self.usually.clone()),
        ];
        let mut text = String::new();
        for (key, value) in keys {
            text += &value.map_or(String::new(), |value| format!("{key}: {value}\n"));
        }
        text
    }
}

impl Printed for AllExplained {
    fn printed(&self) -> String {
        let blocks = self.refused.iter().map(|it| it.printed() + "\n");
        let text: String = blocks.collect();
        text + &format!("ok {}, {} refused\n", self.passed, self.refused.len())
    }
}
