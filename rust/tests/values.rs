//! The values of answers: groups, changes, explanations, parts of relations and versions, and what
//! an index keeps.

use debctl::{
    applies, buildable, canonical, compare, diff, explain, explain_relation, explain_version,
    healthy, installable, paragraphs, query, query_why, relations, satisfies, spelled_relations,
    unmet, witness, Alternative, Asked, ChangeKind, Code, Compared, Error, Explanation,
    HealthFault, Index, InstallFault, Kind, Members, Search, SourceKind, Verdict, Version,
};
use std::collections::HashMap;
use std::num::NonZeroU32;

const INDEX: &str = "Package: aa\nVersion: 01.5-1\nArchitecture: amd64\nMulti-Arch: same\n\
    Provides: mta, virt (= 02)\n\n\nPackage: bb\nVersion: 2\nArchitecture: all\n";

#[test]
fn a_report_has_groups() -> Result<(), Error> {
    let relation = "zz | aa (>= 2), bb, cc <!nocheck>, mta";
    let report = query_why("amd64", &[b"nocheck"], relation, INDEX)?;
    let groups: Vec<_> = report
        .groups
        .iter()
        .map(|it| {
            (
                it.verdict,
                it.text.as_str(),
                it.packages.len(),
                it.reasons.len(),
            )
        })
        .collect();
    assert_eq!(
        groups,
        [
            (Verdict::Met, "bb", 1, 0),
            (Verdict::Ignored, "cc <!nocheck>", 0, 0),
            (Verdict::Met, "mta", 1, 0),
            (Verdict::Unmet, "zz | aa (>= 2)", 0, 2),
        ]
    );
    let bb = &report.groups[0].packages[0];
    assert_eq!((bb.number, bb.name.as_str()), (2, "bb"));
    assert_eq!(
        (bb.version.as_str(), bb.architecture.as_str()),
        ("2", "all")
    );
    let [none, earlier] = [&report.groups[3].reasons[0], &report.groups[3].reasons[1]];
    let package = earlier
        .package
        .as_ref()
        .expect("the reason is about a package");
    assert_eq!((package.number, package.version.as_str()), (1, "1.5-1"));
    assert_eq!(
        (earlier.alternative.as_str(), earlier.reason.as_str()),
        ("aa (>= 2)", "is earlier")
    );
    assert_eq!((none.alternative.as_str(), &none.package), ("zz", &None));
    let plain = query("amd64", &[b"nocheck"], relation, INDEX)?;
    assert!(plain.groups.iter().all(|it| it.reasons.is_empty()));
    let index = Index::read(INDEX)?;
    assert_eq!(index.query_why("amd64", &[b"nocheck"], relation)?, report);
    assert_eq!(index.query("amd64", &[b"nocheck"], relation)?, plain);
    Ok(())
}

#[test]
fn a_report_of_unmet_relations_has_groups() -> Result<(), Error> {
    let source = "Package: gg\nVersion: 1\nArchitecture: any\nBuild-Depends: zz, yy [linux-any]\n";
    let report = unmet(Asked::Sources, "amd64", &[], INDEX, source)?;
    let groups: Vec<_> = report
        .groups
        .iter()
        .map(|it| (it.verdict, it.number, it.field.as_str(), it.group.as_str()))
        .collect();
    assert_eq!(
        groups,
        [
            (Verdict::Unsure, 1, "Build-Depends", "yy [linux-any]"),
            (Verdict::Unmet, 1, "Build-Depends", "zz"),
        ]
    );
    let first = &report.groups[0];
    assert_eq!(
        [&first.package, &first.version, &first.architecture],
        ["gg", "1", "source"]
    );
    Ok(())
}

#[test]
fn a_report_on_a_set_has_reasons() -> Result<(), Error> {
    let set = format!(
        "{INDEX}Depends: zz, yy [linux-any]\nBreaks: mta\nConflicts: xx [linux-any]\n\n\
         Package: xx\nVersion: 1\nArchitecture: all\n\n\
         Package: bb\nVersion: 3\nArchitecture: all\n"
    );
    let report = healthy(Members::All, false, "amd64", &set)?;
    let texts = |field: &str, group: &str| (field.to_owned(), group.to_owned());
    let index = Index::read(&set)?;
    let package = |number| Ok::<_, Error>(index.package(number)?.expect("a package"));
    let faults: Vec<_> = report.reasons.iter().map(|it| it.fault.clone()).collect();
    let unmet = |group: &str, unsure| {
        let (field, group) = texts("Depends", group);
        HealthFault::Unmet {
            field,
            group,
            unsure,
        }
    };
    let conflict = |(field, group), number, unsure| {
        let by = package(number)?;
        Ok::<_, Error>(HealthFault::Conflict {
            field,
            group,
            by,
            unsure,
        })
    };
    assert_eq!(
        faults,
        [
            unmet("yy [linux-any]", true),
            unmet("zz", false),
            conflict(texts("Conflicts", "xx [linux-any]"), 3, true)?,
            conflict(texts("Breaks", "mta"), 1, false)?,
            HealthFault::Duplicate { with: package(4)? },
        ]
    );
    for reason in &report.reasons {
        assert_eq!(reason.package, package(2)?);
    }
    let of_index = healthy(Members::All, false, "amd64", INDEX)?;
    assert!(!report.healthy && of_index.reasons.is_empty());
    Ok(())
}

#[test]
fn a_report_on_a_status_file_has_states() -> Result<(), Error> {
    let status = "Package: aa\nStatus: purge ok not-installed\n\n\
        Package: bb\nStatus: install ok unpacked\nVersion: 02\nArchitecture: all\n\n\
        Package: cc\nStatus: unpacked\n";
    let report = healthy(Members::Installed, false, "amd64", status)?;
    assert_eq!(report.text, "state 2 bb 2 all unpacked\nstate 3 cc - - -\n");
    let found: Vec<_> = report
        .reasons
        .iter()
        .map(|it| {
            let status = match &it.fault {
                HealthFault::State { status } => status.as_str(),
                other => panic!("{other:?}"),
            };
            let package = &it.package;
            let words = [&package.name, &package.version, &package.architecture];
            (package.number, words.map(String::as_str), status)
        })
        .collect();
    assert_eq!(
        found,
        [
            (2, ["bb", "2", "all"], "unpacked"),
            (3, ["cc", "-", "-"], "-")
        ]
    );
    Ok(())
}

/// aa needs two packages that exclude each other, and a wildcard decides what ff needs.
const CHOICES: &str = "Package: aa\nVersion: 1\nArchitecture: all\nDepends: bb | cc, dd | ee\n\n\
    Package: bb\nVersion: 1\nArchitecture: all\nConflicts: dd, ee\n\n\
    Package: cc\nVersion: 1\nArchitecture: all\nConflicts: dd, ee\n\n\
    Package: dd\nVersion: 1\nArchitecture: all\n\n\
    Package: ee\nVersion: 1\nArchitecture: all\n\n\
    Package: ff\nVersion: 01\nArchitecture: i386\nDepends: zz [linux-any]\n\n";

/// A search with this budget.
fn within(budget: Option<NonZeroU32>) -> Search<'static> {
    Search {
        budget,
        ..Search::default()
    }
}

#[test]
fn a_report_on_installable_packages_has_faults() -> Result<(), Error> {
    let index = &format!("{CHOICES}Package: gg\nVersion: 1\nArchitecture: all\nDepends: zz\n");
    let loaded = Index::read(index)?;
    let package = |number| Ok::<_, Error>(loaded.package(number)?.expect("a package"));
    for (budget, first) in [
        (None, InstallFault::Uninstallable),
        (NonZeroU32::new(1), InstallFault::Undecided),
        (Some(NonZeroU32::MAX), InstallFault::Uninstallable),
    ] {
        let report = installable(Members::All, false, within(budget), "amd64", index)?;
        let found: Vec<_> = report
            .packages
            .iter()
            .map(|it| (it.package.clone(), it.fault))
            .collect();
        let wanted = [
            (package(1)?, first),
            (package(6)?, InstallFault::Unsure),
            (package(7)?, InstallFault::Uninstallable),
        ];
        assert_eq!(found, wanted);
        assert!(!report.installable);
    }
    let report = installable(Members::All, true, Search::default(), "amd64", INDEX)?;
    assert!(report.installable && report.packages.is_empty());
    Ok(())
}

#[test]
fn a_report_on_a_set_has_packages_or_faults() -> Result<(), Error> {
    let index = &format!(
        "{CHOICES}Package: gg\nVersion: 1\nArchitecture: all\nDepends: bb, cc\n\n\
        Package: ff\nVersion: 1-0\nArchitecture: i386\nDepends: zz\n"
    );
    let loaded = Index::read(index)?;
    let package = |number| Ok::<_, Error>(loaded.package(number)?.expect("a package"));
    let report = witness(Members::All, false, Search::default(), "amd64", "gg", index)?;
    assert!(report.found && report.not_installable.is_empty());
    assert_eq!(report.packages, [package(2)?, package(3)?, package(7)?]);
    let faults = |budget, name| -> Result<Vec<_>, Error> {
        let report = witness(Members::All, false, within(budget), "amd64", name, index)?;
        assert!(!report.found && report.packages.is_empty());
        let faults = report.not_installable.into_iter();
        Ok(faults.map(|it| (it.package, it.fault)).collect())
    };
    for (budget, fault) in [
        (None, InstallFault::Uninstallable),
        (NonZeroU32::new(1), InstallFault::Undecided),
        (Some(NonZeroU32::MAX), InstallFault::Uninstallable),
    ] {
        assert_eq!(faults(budget, "aa")?, [(package(1)?, fault)]);
    }
    let wanted = [
        (package(6)?, InstallFault::Unsure),
        (package(8)?, InstallFault::Uninstallable),
    ];
    assert_eq!(faults(None, "ff")?, wanted);
    assert_eq!(faults(None, "zz")?, []);
    Ok(())
}

#[test]
fn a_report_on_source_packages_has_faults() -> Result<(), Error> {
    let index = "Package: build-essential\nVersion: 1\nArchitecture: amd64\n\n\
        Package: aa\nVersion: 1\nArchitecture: all\nConflicts: bb\n\n\
        Package: bb\nVersion: 1\nArchitecture: all\n";
    let sources = "Package: ss\nVersion: 01\nBuild-Depends: aa\nBuild-Depends-Indep: bb\n\n\
        Package: tt\nVersion: 1\nBuild-Depends: aa | bb\n\n\
        Package: uu\nVersion: 1-0\nBuild-Conflicts-Arch: build-essential [linux-any]\n";
    let search = Search::default();
    let report = buildable(SourceKind::Sources, search, "amd64", &[], index, sources)?;
    let found: Vec<_> = report
        .packages
        .iter()
        .map(|it| {
            let package = &it.package;
            (
                package.number,
                package.name.as_str(),
                package.version.as_str(),
                package.architecture.as_str(),
                it.fault,
            )
        })
        .collect();
    let wanted = [
        (1, "ss", "1", "source", InstallFault::Uninstallable),
        (3, "uu", "1", "source", InstallFault::Unsure),
    ];
    assert_eq!(found, wanted);
    assert!(!report.buildable);
    let report = buildable(SourceKind::Sources, search, "amd64", &[], index, "")?;
    assert!(report.buildable && report.packages.is_empty());
    Ok(())
}

#[test]
fn changes_have_versions_and_lines() -> Result<(), Error> {
    let new = "Package: aa\nVersion: 1.5-1\nArchitecture: amd64\nMulti-Arch: foreign\n\
        Provides: mta, virt (= 2)\n\nPackage: bb\nVersion: 3\nArchitecture: all\n\n\
        Package: cc\nVersion: 1\nArchitecture: all\n";
    let changes = diff(Compared::Packages, true, INDEX, new)?;
    let kinds: Vec<_> = changes
        .iter()
        .map(|it| (it.kind, it.package.as_str()))
        .collect();
    let mut wanted = [
        (ChangeKind::Changed, "aa"),
        (ChangeKind::Upgraded, "bb"),
        (ChangeKind::Added, "cc"),
    ];
    assert_eq!(kinds, wanted);
    let versions = |at: usize| {
        (
            changes[at].old_version.as_deref(),
            changes[at].new_version.as_deref(),
        )
    };
    assert_eq!(versions(0), (Some("1.5-1"), Some("1.5-1")));
    assert_eq!(versions(1), (Some("2"), Some("3")));
    assert_eq!(versions(2), (None, Some("1")));
    assert_eq!(
        (&changes[0].fields[..], &changes[2].fields[..]),
        (&["Multi-Arch".to_owned()][..], &[][..])
    );
    assert_eq!(
        (&changes[0].old[0], &changes[0].new[0]),
        (&"Multi-Arch: same".into(), &"Multi-Arch: foreign".into())
    );
    assert_eq!(
        changes[2].new,
        ["Architecture: all", "Package: cc", "Version: 1"]
    );
    let back = diff(Compared::Packages, false, new, INDEX)?;
    wanted[2] = (ChangeKind::Removed, "cc");
    assert!(back
        .iter()
        .any(|it| (it.kind, it.package.as_str()) == wanted[2] && it.number == 3));
    Ok(())
}

#[test]
fn explanations_have_a_place() -> Result<(), Error> {
    let why = explain(
        Kind::Packages,
        "Package: aa\nVersion: 1\nDepends: bb,\n cc dd\n",
    )?;
    assert_eq!((why.place, why.at), (Some(8), Some((4, 5))));
    assert_eq!(
        [why.field.as_deref(), why.reason.as_deref()],
        [Some("Depends"), Some("Trailing")]
    );
    assert_eq!(why.value.as_deref(), Some("bb,\\n cc dd"));
    assert!(why.rule.is_some() && why.usually.is_some() && why.passed.is_none());
    let passed = explain(Kind::Any, "a: 1\n\nb: 1\n")?;
    assert_eq!(
        (passed.passed, passed.refusal, passed.text.as_str()),
        (Some(2), None, "ok 2\n")
    );
    let of = |why: &Explanation| {
        why.refusal
            .as_ref()
            .map(|it| (it.code, it.line, it.field.clone()))
    };
    let relation = explain_relation("hello, world (! 1)")?;
    assert_eq!(
        (relation.place, relation.reason.as_deref()),
        (Some(14), Some("OperatorBad"))
    );
    assert_eq!(of(&relation), Some((Code::BadRelation, 0, None)));
    let version = explain_version("1_2")?;
    assert_eq!(
        (version.place, of(&version)),
        (Some(1), Some((Code::BadVersion, 0, None)))
    );
    let valid = [explain_version("1")?, explain_relation("aa")?];
    assert!(valid
        .iter()
        .all(|it| it.text == "ok\n" && it.refusal.is_none() && it.passed.is_none()));
    Ok(())
}

#[test]
fn alternatives_are_canonical_or_as_spelled() -> Result<(), Error> {
    let text = "bb:any|aa(<01-0)[ !amd64\n\t!i386 ]<!nocheck  cross><aa> , , bb:any | aa (< 1),cc";
    let spelled = spelled_relations(text)?;
    assert_eq!(spelled.iter().map(Vec::len).collect::<Vec<_>>(), [2, 2, 1]);
    let second = &spelled[0][1];
    assert_eq!(second.bound, Some(("<".to_owned(), "01-0".to_owned())));
    assert_eq!(second.architectures, ["!amd64", "!i386"]);
    assert_eq!(second.profiles, [vec!["!nocheck", "cross"], vec!["aa"]]);
    assert_eq!(spelled[0][0].qualifier.as_deref(), Some("any"));
    let groups: Vec<String> = relations(text)?
        .iter()
        .map(|group| {
            group
                .iter()
                .map(Alternative::to_string)
                .collect::<Vec<_>>()
                .join(" | ")
        })
        .collect();
    assert_eq!(
        groups,
        [
            "bb:any | aa (<= 1)",
            "bb:any | aa (<= 1) [!amd64 !i386] <!nocheck cross> <aa>",
            "cc",
        ]
    );
    assert!(spelled_relations("aa (").is_err());
    assert!(spelled_relations("")?.is_empty());
    Ok(())
}

#[test]
fn one_alternative_is_asked_alone() -> Result<(), Error> {
    let one = |text: &str| relations(text).map(|groups| groups[0][0].clone());
    let all = paragraphs(Kind::Packages, INDEX)?;
    let first = all.iter().next().expect("a paragraph")?;
    for (relation, is_met) in [
        ("aa", true),
        ("aa (>= 1.5-1)", true),
        ("aa (>> 1.5-1)", false),
        ("aa [i386] <cross>", true),
        ("virt (= 2)", true),
        ("mta (>= 1)", false),
        ("bb", false),
    ] {
        assert_eq!(
            satisfies(&one(relation)?, &first, "amd64")?,
            is_met,
            "{relation}"
        );
    }
    assert!(!satisfies(&one("aa")?, &first, "i386")?);
    let restricted = one("zz [amd64] <!nocheck>")?;
    assert!(applies(&restricted, "amd64", &[])?);
    assert!(!applies(&restricted, "amd64", &[b"nocheck"])?);
    assert!(!applies(&restricted, "i386", &[])?);
    let wildcard = applies(&one("zz [linux-any]")?, "amd64", &[]);
    assert!(matches!(wildcard, Err(Error::Refused(it)) if it.code == Code::Wildcard));
    Ok(())
}

#[test]
fn versions_have_parts() -> Result<(), Error> {
    for (text, epoch, upstream, revision) in [
        ("1", None, "1", None),
        ("00:1.02-a-01", Some("00"), "1.02-a", Some("01")),
        ("1:2:3-0", Some("1"), "2:3", Some("0")),
    ] {
        let version = Version::new(text)?;
        assert_eq!(
            (version.epoch(), version.upstream(), version.revision()),
            (epoch, upstream, revision)
        );
        let canonical = version.canonical()?;
        assert_eq!(
            (canonical.text(), &canonical),
            (&debctl::canonical(text)?[..], &version)
        );
    }
    assert_eq!(Version::new("0:1.02-0")?.canonical()?.upstream(), "1.2");
    assert_eq!(
        format!("{:?} {0:>5}|", Version::new("01")?),
        "Version(\"01\")    01|"
    );
    let known: HashMap<Version, u8> = [("1.0".parse()?, 1)].into_iter().collect();
    assert_eq!(known.get(&Version::new("0:1.00")?), Some(&1));
    let version = Version::new("2")?;
    assert!(compare(&version, "3")?.is_lt() && canonical(&version)? == "2");
    let bytes: &[u8] = version.as_ref();
    assert_eq!(bytes, b"2");
    Ok(())
}

#[test]
fn an_index_keeps_details() -> Result<(), Error> {
    let index = Index::read(INDEX)?;
    let first = index.details(1)?.expect("a package");
    assert_eq!((first.line, first.multi_arch.as_deref()), (1, Some("same")));
    assert_eq!(Some(&first.package), index.package(1)?.as_ref());
    let provides: Vec<String> = first.provides.iter().map(Alternative::to_string).collect();
    assert_eq!(provides, ["mta", "virt (= 2)"]);
    let second = index.details(2)?.expect("a package");
    assert_eq!(
        (second.line, second.multi_arch, second.provides.len()),
        (8, None, 0)
    );
    assert_eq!((index.details(0)?, index.details(3)?), (None, None));
    assert_eq!(format!("{index:?}"), "Index { len: 2, .. }");
    Ok(())
}

#[test]
fn names_are_read_and_printed() {
    for name in ["binary", "packages", "source", "sources", "any", "status"] {
        assert_eq!(
            name.parse().map(|kind: Kind| kind.to_string()),
            Ok(name.to_owned())
        );
    }
    let unknown = "Any".parse::<Kind>().expect_err("no kind");
    assert_eq!(unknown.to_string(), "unknown kind: \"Any\"");
    assert_eq!(
        (Code::BadVersion.number(), Code::BadVersion.to_string()),
        (18, "BadVersion".into())
    );
    let all = paragraphs(Kind::Any, "a: \u{e9}\n b\n").expect("memory");
    let debug = "[Ok([Field { name: \"a\", value: \"\u{e9}\\n b\", line: 1 }])]";
    assert_eq!(format!("{all:?}"), debug);
}
