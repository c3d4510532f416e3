//! Versions and their keys, relations, unmet relations, sets of packages, which packages can be
//! installed, with which ones, and which source packages built, and the paragraphs of a file and all
//! its refusals.

use debctl::{
    buildable, check, check_all, compare, diff, explain, explain_all, healthy, installable, key,
    paragraphs, query, relations, unmet, witness, Asked, Code, Compared, Error, Index, Kind,
    Members, Refusal, Search, SourceKind, Version,
};
use std::collections::HashSet;
use std::num::NonZeroU32;

/// The code, the line and the field of the refusal that an answer is.
fn refused<Answer>(answer: Result<Answer, Error>) -> (Code, u64, Option<String>) {
    let error = answer.err().expect("a refusal");
    of_refusal(error.refusal().expect("a refusal"))
}

fn of_refusal(refusal: &Refusal) -> (Code, u64, Option<String>) {
    (refusal.code, refusal.line, refusal.field.clone())
}

/// Ascending; the second is the same version as the first, and so are two others.
const VERSIONS: &[&str] = &[
    "0", "00-0", "1~~", "1~", "1", "1-0", "1a", "1+", "1.0~rc1", "1.0", "1.0-1", "1.9", "1.10",
    "2.0~beta", "2.0", "9:0", "10:0~", "10:0",
];

#[test]
fn keys_have_the_order_of_versions() -> Result<(), Error> {
    for left in VERSIONS {
        for right in VERSIONS {
            let order = compare(left.as_bytes(), right.as_bytes())?;
            assert_eq!(key(left.as_bytes())?.cmp(&key(right.as_bytes())?), order);
            assert_eq!(Version::new(left.as_bytes())?.cmp(&right.parse()?), order);
        }
    }
    let set: HashSet<Version> = VERSIONS
        .iter()
        .map(|version| version.parse())
        .collect::<Result<_, _>>()?;
    assert_eq!(set.len(), VERSIONS.len() - 2);
    assert_eq!(refused(Version::new(b"1_")), (Code::BadVersion, 0, None));
    let second = compare("1", "1_").expect_err("a refusal");
    assert!(matches!(second, Error::SecondRefused(_)));
    assert_eq!(key([b'1'; 1000])?.len(), 1010);
    Ok(())
}

#[test]
fn a_relation_has_its_parts() -> Result<(), Error> {
    let groups = relations(b"bb:any | aa (>> 01) [!amd64 !i386] <!nocheck cross> <aa>, cc")?;
    assert_eq!(groups.len(), 2);
    let second = &groups[0][1];
    assert_eq!(groups[0][0].qualifier.as_deref(), Some("any"));
    assert_eq!(second.bound, Some((">>".to_owned(), "1".to_owned())));
    assert_eq!(second.architectures, ["!amd64", "!i386"]);
    assert_eq!(second.profiles, [vec!["!nocheck", "cross"], vec!["aa"]]);
    assert_eq!(groups[1][0].name, "cc");
    assert!(relations(b"")?.is_empty());
    assert!(relations(b"aa (").is_err());
    Ok(())
}

#[test]
fn unmet_relations_have_lines() -> Result<(), Error> {
    let index = b"Package: aa\nVersion: 1\nArchitecture: amd64\nDepends: bb\nRecommends: cc\n";
    let asked = Asked::Packages { recommends: false };
    let report = unmet(asked, b"amd64", &[], index, index)?;
    assert!(!report.met);
    assert_eq!(report.text, "unmet 1 aa 1 amd64 Depends bb\n");
    let all = Asked::Packages { recommends: true };
    let report = unmet(all, b"amd64", &[b"nocheck"], index, index)?;
    assert!(report.text.ends_with("Recommends cc\n"));
    assert!(unmet(Asked::Sources, b"amd64", &[], index, b"")?.met);
    let second = unmet(Asked::Source, b"amd64", &[], index, b"x\n");
    assert!(matches!(second, Err(Error::SecondRefused(it)) if it.line == 1));
    let loaded = Index::read(index)?;
    for asked in [asked, all, Asked::Source] {
        for (target, file) in [
            (b"amd64", index.as_slice()),
            (b"amd64", b"x\n"),
            (b"a_d64", b""),
        ] {
            let whole = unmet(asked, target, &[b"nocheck"], index, file);
            assert_eq!(loaded.unmet(asked, target, &[b"nocheck"], file), whole);
        }
    }
    Ok(())
}

#[test]
fn sets_of_packages_have_lines() -> Result<(), Error> {
    let package = "Package: aa\nVersion: 01\nArchitecture: amd64\n";
    let set = format!("{package}Depends: bb\nRecommends: cc\n\n{package}");
    let (bb, cc) = (
        "unmet 1 aa 1 amd64 Depends bb\n",
        "unmet 1 aa 1 amd64 Recommends cc\n",
    );
    let twice = "duplicate 1 aa 1 amd64 with 2 1 amd64\n";
    let report = healthy(Members::All, false, "amd64", &set)?;
    assert_eq!(report.text, format!("{bb}{twice}"));
    assert_eq!(report.to_string(), report.text);
    assert!(!report.healthy);
    assert_eq!(
        healthy(Members::All, true, b"amd64", set.as_bytes())?.text,
        format!("{bb}{cc}{twice}")
    );
    for set in ["", package, "Package: bb\nVersion: 1\nArchitecture: i386\n"] {
        let report = healthy(Members::All, true, "amd64", set)?;
        assert!(report.healthy && report.text.is_empty());
    }
    assert_eq!(
        refused(healthy(Members::All, true, "any", "x")),
        (Code::BadEnvironment, 0, None)
    );
    let version = Some("Version".to_owned());
    assert_eq!(
        refused(healthy(
            Members::All,
            false,
            "amd64",
            package.replace("01", "1_")
        )),
        (Code::BadVersion, 2, version)
    );
    Ok(())
}

#[test]
fn a_set_has_the_installed_packages_of_a_status_file() -> Result<(), Error> {
    let package = |name: &str, status: &str, more: &str| {
        format!("Package: {name}\nStatus: {status}\nArchitecture: all\nVersion: 01\n{more}\n")
    };
    let status = [
        package("aa", "deinstall ok config-files", "Depends: zz\n"),
        package("bb", "install ok half-installed", "Conflicts: cc\n"),
        package(
            "cc",
            "install ok installed",
            "Depends: aa, cc\nRecommends: bb\n",
        ),
    ]
    .concat();
    let (aa, bb) = (
        "state 2 bb 1 all half-installed\nunmet 1 cc 1 all Depends aa\n",
        "unmet 1 cc 1 all Recommends bb\n",
    );
    let report = healthy(Members::Installed, false, "amd64", &status)?;
    assert_eq!((report.healthy, report.text.as_str()), (false, aa));
    let numbers: Vec<u64> = report.reasons.iter().map(|it| it.package.number).collect();
    assert_eq!(numbers, [2, 1]);
    let report = healthy(Members::Installed, true, "amd64", status.as_bytes())?;
    assert_eq!(report.text, format!("{aa}{bb}"));
    assert!(healthy(Members::Installed, true, "amd64", "")?.healthy);
    let all = healthy(Members::All, false, "amd64", &status)?;
    assert_eq!(
        all.text,
        "unmet 1 aa 1 all Depends zz\nconflict 2 bb 1 all Conflicts cc by 3 cc 1 all\n"
    );
    assert_eq!(
        refused(healthy(Members::Installed, true, "any", "x")),
        (Code::BadEnvironment, 0, None)
    );
    let without = "Package: aa\nArchitecture: all\nVersion: 1\n";
    assert_eq!(
        refused(healthy(Members::Installed, false, "amd64", without)),
        (Code::MissingField, 1, Some("Status".to_owned()))
    );
    let wrong = status.replacen("01", "1_", 1);
    assert_eq!(
        refused(healthy(Members::Installed, false, "amd64", wrong)),
        (Code::BadVersion, 4, Some("Version".to_owned()))
    );
    Ok(())
}

/// A package for `all`.
fn package(name: &str, more: &str) -> String {
    format!("Package: {name}\nVersion: 01\nArchitecture: all\n{more}\n")
}

/// aa excludes what bb needs, which aa needs.
fn three() -> String {
    [
        package("aa", "Depends: bb\nConflicts: cc\n"),
        package("bb", "Depends: cc\nRecommends: aa\n"),
        package("cc", ""),
    ]
    .concat()
}

#[test]
fn packages_that_cannot_be_installed_have_lines() -> Result<(), Error> {
    let index = three();
    let aa = "uninstallable 1 aa 1 all\n";
    let report = installable(Members::All, false, Search::default(), "amd64", &index)?;
    assert_eq!((report.installable, report.text.as_str()), (false, aa));
    assert_eq!(report.to_string(), report.text);
    let report = installable(
        Members::All,
        true,
        Search::default(),
        b"amd64",
        index.as_bytes(),
    )?;
    assert_eq!(report.text, format!("{aa}uninstallable 2 bb 1 all\n"));
    for index in ["", &package("aa", "Recommends: zz\n")] {
        let report = installable(Members::All, false, Search::default(), "amd64", index)?;
        assert!(report.installable && report.text.is_empty());
    }
    let status = [
        package("bb", "Status: deinstall ok config-files\n"),
        package("aa", "Status: install ok installed\nDepends: bb\n"),
    ]
    .concat();
    let report = installable(
        Members::Installed,
        false,
        Search::default(),
        "amd64",
        &status,
    )?;
    assert_eq!(report.text, aa);
    assert!(installable(Members::All, false, Search::default(), "amd64", status)?.installable);
    assert_eq!(
        refused(installable(
            Members::All,
            true,
            Search::default(),
            "any",
            "x"
        )),
        (Code::BadEnvironment, 0, None)
    );
    let wrong = index.replacen("01", "1_", 1);
    assert_eq!(
        refused(installable(
            Members::All,
            false,
            Search::default(),
            "amd64",
            wrong
        )),
        (Code::BadVersion, 2, Some("Version".to_owned()))
    );
    assert_eq!(
        refused(installable(
            Members::Installed,
            false,
            Search::default(),
            "amd64",
            index
        )),
        (Code::MissingField, 1, Some("Status".to_owned()))
    );
    Ok(())
}

#[test]
fn a_set_with_a_package_has_lines() -> Result<(), Error> {
    let index = three();
    let ask = |recommends, name: &[u8]| {
        witness(
            Members::All,
            recommends,
            Search::default(),
            "amd64",
            name,
            &index,
        )
    };
    let report = ask(false, b"bb")?;
    assert_eq!(report.text, " 2 bb 1 all\n 3 cc 1 all\n");
    assert_eq!(report.to_string(), report.text);
    assert!(report.found && ask(true, b"cc")?.found);
    for (recommends, name, line) in [(false, "aa", "1 aa"), (true, "bb", "2 bb")] {
        let report = ask(recommends, name.as_bytes())?;
        assert_eq!(report.text, format!("uninstallable {line} 1 all\n"));
        assert!(!report.found);
    }
    let long = [b'b'; 1 << 20];
    let others = [
        &b""[..],
        b"b",
        b"bb\0",
        b"\0",
        b"b\xff",
        b"BB",
        b"bb,cc",
        &long,
    ];
    for name in others {
        let report = ask(false, name)?;
        assert!(!report.found && report.text.is_empty());
    }
    let status = [
        package("bb", "Status: deinstall ok config-files\n"),
        package("aa", "Status: install ok installed\n"),
    ]
    .concat();
    let report = witness(
        Members::Installed,
        true,
        Search::default(),
        b"amd64",
        "aa",
        &status,
    )?;
    assert_eq!(report.text, " 1 aa 1 all\n");
    assert!(
        !witness(
            Members::Installed,
            true,
            Search::default(),
            "amd64",
            "bb",
            &status
        )?
        .found
    );
    assert_eq!(
        refused(witness(
            Members::All,
            true,
            Search::default(),
            "any",
            "aa",
            "x"
        )),
        (Code::BadEnvironment, 0, None)
    );
    let wrong = index.replacen("01", "1_", 1);
    assert_eq!(
        refused(witness(
            Members::All,
            false,
            Search::default(),
            "amd64",
            "cc",
            wrong
        )),
        (Code::BadVersion, 2, Some("Version".to_owned()))
    );
    assert_eq!(
        refused(witness(
            Members::Installed,
            false,
            Search::default(),
            "amd64",
            "aa",
            index
        )),
        (Code::MissingField, 1, Some("Status".to_owned()))
    );
    Ok(())
}

/// dd and bb are essential and exclude each other; zz is needed, and isn't there.
fn essential() -> String {
    [
        package("aa", "Depends: bb\n"),
        package("bb", "Essential: yes\nConflicts: dd\n"),
        package("cc", "Depends: zz\n"),
        package("dd", "Essential: yes\n"),
    ]
    .concat()
}

#[test]
fn sets_have_essential_packages_and_none_that_is_left_out() -> Result<(), Error> {
    let index = essential();
    let cc = "uninstallable 3 cc 1 all\n";
    let all = "uninstallable 1 aa 1 all\nuninstallable 2 bb 1 all\n\
        uninstallable 3 cc 1 all\nuninstallable 4 dd 1 all\n";
    let ask = |essential, without: &[&[u8]]| {
        let search = Search {
            essential,
            without,
            ..Search::default()
        };
        installable(Members::All, false, search, "amd64", &index).map(|it| it.text)
    };
    assert_eq!(ask(false, &[])?, cc);
    assert_eq!(ask(true, &[])?, all);
    assert_eq!(ask(true, &[b"dd"])?, cc);
    assert_eq!(ask(true, &[b"cc", b"dd", b"none"])?, "");
    assert_eq!(ask(false, &[b"bb", b"cc"])?, "uninstallable 1 aa 1 all\n");
    let long = [b'c'; 1 << 20];
    let others: [&[u8]; 9] = [
        b"", b"c", b"cc\0", b"\0", b"\xff", b"CC", b"cc,dd", b" cc", &long,
    ];
    assert_eq!(ask(false, &others)?, cc);
    let set = |essential, without: &[&[u8]], name| {
        let search = Search {
            essential,
            without,
            ..Search::default()
        };
        witness(Members::All, false, search, "amd64", name, &index).map(|it| it.text)
    };
    assert_eq!(set(false, &[], "aa")?, " 1 aa 1 all\n 2 bb 1 all\n");
    assert_eq!(set(true, &[], "aa")?, "uninstallable 1 aa 1 all\n");
    assert_eq!(set(true, &[b"bb"], "dd")?, " 4 dd 1 all\n");
    assert_eq!(set(false, &[b"aa"], "aa")?, "");
    Ok(())
}

#[test]
fn packages_that_cannot_be_installed_have_reasons() -> Result<(), Error> {
    let index = essential();
    let search = Search {
        without: &[b"bb"],
        why: true,
        ..Search::default()
    };
    let aa = "uninstallable 1 aa 1 all\n 1 aa 1 all needs bb: 2\n 2 bb 1 all is left out\n";
    let cc = "uninstallable 3 cc 1 all\n 3 cc 1 all needs zz: none\n";
    let report = installable(Members::All, false, search, "amd64", &index)?;
    assert_eq!(report.text, format!("{aa}{cc}"));
    let report = witness(Members::All, false, search, "amd64", "aa", &index)?;
    assert_eq!((report.found, report.text.as_str()), (false, aa));
    let report = witness(Members::All, false, search, "amd64", "dd", &index)?;
    assert_eq!(
        (report.found, report.text.as_str()),
        (true, " 4 dd 1 all\n")
    );
    let ended = Search {
        budget: NonZeroU32::new(1),
        ..search
    };
    let report = installable(Members::All, false, ended, "amd64", package("aa", ""))?;
    assert!(report.installable && report.text.is_empty());
    Ok(())
}

#[test]
fn source_packages_that_cannot_be_built_have_lines() -> Result<(), Error> {
    let index = "Package: build-essential\nVersion: 1\nArchitecture: amd64\n";
    let sources = "Package: ss\nVersion: 1.0-0\nBuild-Depends: zz <!nocheck>\n";
    let line = "uninstallable 1 ss 1.0 source\n";
    let kind = SourceKind::Sources;
    let report = buildable(kind, Search::default(), "amd64", &[], index, sources)?;
    assert_eq!((report.buildable, report.text.as_str()), (false, line));
    assert_eq!(report.to_string(), report.text);
    let profiles: &[&[u8]] = &[b"cross", b"nocheck"];
    let report = buildable(
        kind,
        Search::default(),
        b"amd64",
        profiles,
        index.as_bytes(),
        sources,
    )?;
    assert!(report.buildable && report.text.is_empty());
    let source = format!("Format: 1.0\n{}", sources.replace("Package", "Source"));
    for budget in [1, u32::MAX].map(NonZeroU32::new) {
        let search = Search {
            budget,
            ..Search::default()
        };
        let report = buildable(SourceKind::Source, search, "amd64", &[], index, &source)?;
        assert_eq!(report.text, line);
    }
    for (essential, without) in [(true, &b"aa"[..]), (false, b"build-essential")] {
        let search = Search {
            essential,
            without: &[without],
            ..Search::default()
        };
        let report = buildable(kind, search, "amd64", profiles, index, sources)?;
        assert_eq!(report.buildable, essential);
    }
    let search = Search {
        why: true,
        ..Search::default()
    };
    let report = buildable(kind, search, "amd64", &[b"cross"], index, sources)?;
    let need = " 1 ss 1.0 source needs zz <!nocheck>: none\n";
    assert_eq!(report.text, format!("{line}{need}"));
    assert!(buildable(kind, Search::default(), "amd64", &[], "", "")?.buildable);
    for (target, profiles) in [("any", &[][..]), ("amd64", &[b"".as_slice()][..])] {
        assert_eq!(
            refused(buildable(
                kind,
                Search::default(),
                target,
                profiles,
                "x",
                "x"
            )),
            (Code::BadEnvironment, 0, None)
        );
    }
    let wrong = index.replacen('1', "1_", 1);
    assert_eq!(
        refused(buildable(kind, Search::default(), "amd64", &[], wrong, "x")),
        (Code::BadVersion, 2, Some("Version".to_owned()))
    );
    let nameless = format!("Format: 1.0\n{sources}");
    let second = buildable(
        SourceKind::Source,
        Search::default(),
        "amd64",
        &[],
        index,
        nameless,
    );
    assert!(matches!(second, Err(Error::SecondRefused(_))));
    assert_eq!(
        refused(second),
        (Code::MissingField, 1, Some("Source".to_owned()))
    );
    Ok(())
}

#[test]
fn paragraphs_have_fields() -> Result<(), Error> {
    let text = b"\nPackage: hello \nDepends:\taa,\n bb\n\nx:\n\nbad\n";
    let all = paragraphs(Kind::Any, text)?;
    let mut iter = all.iter();
    let first = iter.next().expect("a paragraph")?;
    assert_eq!(first.line(), 2);
    assert_eq!(first.get("pACKAGE"), Some(&b"hello"[..]));
    assert_eq!(first.get("Version"), None);
    let names: Vec<&str> = first.fields().map(|field| field.name).collect();
    assert_eq!(names, ["Package", "Depends"]);
    assert_eq!(first.field("Depends").map(|field| field.line), Some(3));
    assert_eq!(
        first.relations("Depends")?.map(|groups| groups.len()),
        Some(2)
    );
    let second = iter.next().expect("another")?;
    assert_eq!((second.line(), second.get("x")), (6, Some(&b""[..])));
    assert!(matches!(iter.next(), Some(Err(Error::Refused(it))) if it.line == 8));
    assert!(iter.next().is_none());
    let control = b"Package: hello\nVersion: 01\nArchitecture: all\nDepends: bb,aa(>=1)\n";
    for paragraph in &paragraphs(Kind::Packages, control)? {
        let depends = paragraph?.canonical("depends")?;
        assert_eq!(depends.as_deref(), Some(&b"aa (>= 1), bb"[..]));
    }
    assert_eq!(paragraphs(Kind::Any, b"")?.iter().count(), 0);
    let many: Vec<u8> = (0..999)
        .flat_map(|at| format!("a{at}:\n").into_bytes())
        .collect();
    let all = paragraphs(Kind::Any, &many)?;
    assert_eq!(all.iter().next().expect("one")?.fields().count(), 999);
    Ok(())
}

#[test]
fn an_index_is_asked_from_threads() -> Result<(), Error> {
    let text = b"Package: aa\nVersion: 1\nArchitecture: all\nProvides: mta\n\n\
        Package: aa\nVersion: 2\nArchitecture: amd64\n";
    let index = Index::read(text)?;
    assert_eq!((index.len(), index.is_empty()), (2, false));
    assert_eq!(index.packages(b"aa"), [1, 2]);
    assert_eq!(index.providers(b"mta"), [1]);
    assert_eq!(index.package(2)?.map(|it| it.version), Some("2".to_owned()));
    assert_eq!((index.package(0)?, index.package(3)?), (None, None));
    std::thread::scope(|scope| {
        for relation in [b"aa (>= 2)".as_slice(), b"mta | bb", b"bb", b"aa ("] {
            let index = &index;
            scope.spawn(move || {
                let whole = query(b"amd64", &[b"nocheck"], relation, text);
                assert_eq!(index.query(b"amd64", &[b"nocheck"], relation), whole);
            });
        }
    });
    let version = Some("Version".to_owned());
    let index = Index::read(b"Package: aa\nVersion: 1-\n");
    assert_eq!(refused(index), (Code::BadVersion, 2, version));
    Ok(())
}

#[test]
fn what_changed_has_lines() -> Result<(), Error> {
    let old = b"Package: aa\nVersion: 1\nArchitecture: all\nSize: 1\n";
    let new = b"Size: 2\nPackage: aa\nVersion: 1.0-0\nArchitecture: all\n\n\
        Package: bb\nVersion: 1\nArchitecture: all\n";
    let changes = diff(Compared::Packages, false, old, new)?;
    let lines: Vec<String> = changes.iter().map(|it| it.to_string()).collect();
    let added = "added 2 bb 1 all";
    assert_eq!(lines, ["upgraded 1 aa 1 1.0 all Size Version", added]);
    let changes = diff(Compared::Binary, true, old, &new[..53])?;
    let lines: Vec<&str> = changes[0].text.split('\n').skip(1).collect();
    let wanted = [" -Size: 1", " +Size: 2", " -Version: 1", " +Version: 1.0"];
    assert_eq!(lines, wanted);
    assert!(diff(Compared::Packages, true, old, old)?.is_empty());
    let second = diff(Compared::Binary, false, old, b"");
    assert!(matches!(second, Err(Error::SecondRefused(it)) if it.code == Code::NoParagraph));
    Ok(())
}

#[test]
fn a_file_has_several_refusals() -> Result<(), Error> {
    let good = b"Package: aa\nVersion: 1\nArchitecture: all\n";
    let all = check_all(Kind::Packages, good)?;
    assert_eq!((all.passed, all.refused), (1, vec![]));
    assert_eq!(explain_all(Kind::Packages, good)?.text, "ok 1, 0 refused\n");
    let text = [&good[..], b"\nvERSION: 1-\n\nbad\n\n", good].concat();
    let all = check_all(Kind::Packages, &text)?;
    let version = Some("vERSION".to_owned());
    let wanted = [(Code::BadVersion, 5, version), (Code::NoColon, 7, None)];
    let found: Vec<_> = all.refused.iter().map(of_refusal).collect();
    assert_eq!((all.passed, &found[..]), (2, &wanted[..]));
    assert_eq!(refused(check(Kind::Packages, &text)), wanted[0]);
    let first = explain(Kind::Packages, &text)?;
    let told = explain_all(Kind::Packages, &text)?;
    assert!(told
        .text
        .starts_with(&format!("{first}\nline: 7\ncode: 6\n")));
    assert!(told.text.ends_with("\n\nok 2, 2 refused\n"));
    assert_eq!((told.passed, &told.refused[0]), (2, &first));
    let refusals: Vec<_> = told.refused.iter().map(|it| it.refusal.clone()).collect();
    assert_eq!(
        refusals,
        [Some(all.refused[0].clone()), Some(all.refused[1].clone())]
    );
    let any = check_all(Kind::Any, &text)?.refused;
    assert_eq!(any.iter().map(of_refusal).collect::<Vec<_>>(), wanted[1..]);
    let single = check_all(Kind::Binary, &text)?;
    let codes: Vec<_> = single.refused.iter().map(|it| (it.line, it.code)).collect();
    assert_eq!(codes, [(5, Code::TooManyParagraphs)]);
    let many = check_all(Kind::Any, b"x\n\n".repeat(5000))?;
    assert_eq!((many.passed, many.refused.len()), (0, 5000));
    assert_eq!(of_refusal(&many.refused[4999]), (Code::NoColon, 9999, None));
    Ok(())
}

/// A field that is refused has its name as it stands: neither escaped nor cut.
#[test]
fn a_refusal_has_the_name_of_its_field() -> Result<(), Error> {
    let long = "x".repeat(300);
    for name in ["X\\Y", &long, "\u{e9}", "a\"b", "X Y", ""] {
        let text = format!("Package: aa\nVersion: 1\n\n{name}: 1\n{name}: 2\n");
        let (code, line, field) = refused(check(Kind::Any, &text));
        let expected = if name.is_ascii() && !name.contains(' ') && !name.is_empty() {
            (Code::DuplicateField, 5)
        } else {
            (Code::BadFieldName, 4)
        };
        assert_eq!(((code, line), field.as_deref()), (expected, Some(name)));
        assert_eq!(check_all(Kind::Any, &text)?.refused[0].field, field);
        assert_eq!(
            explain(Kind::Any, &text)?.refusal.and_then(|it| it.field),
            field
        );
    }
    let spaced = refused(check(Kind::Any, "a: 1\na : 2\n"));
    assert_eq!(spaced, (Code::BadFieldName, 2, Some("a ".to_owned())));
    let returns = refused(check(Kind::Any, "a: 1\r\nb\r: 2\n"));
    assert_eq!(returns, (Code::BadFieldName, 2, Some("b\r".to_owned())));
    let missing = refused(check(Kind::Packages, "\nPackage: aa\n"));
    assert_eq!(missing, (Code::MissingField, 2, Some("Version".to_owned())));
    let folded = "Package: aa\nVersion: 1\nArchitecture: all\ndepends: bb,\n cc dd\n";
    let folded = refused(check(Kind::Packages, folded));
    assert_eq!(folded, (Code::BadRelation, 4, Some("depends".to_owned())));
    Ok(())
}

#[test]
fn lines_of_a_diff_keep_their_carriage_returns() -> Result<(), Error> {
    let old = b"Package: aa\nVersion: 1\nArchitecture: all\nNote: a\r\n b\r\n";
    let new = b"Package: aa\nVersion: 1\nArchitecture: all\nNote: a\r\n c\r\r\n";
    let change = &diff(Compared::Packages, true, old, new)?[0];
    let text = "changed 1 aa 1 all Note\n -Note: a\r\n - b\r\n +Note: a\r\n + c\r\r";
    assert_eq!(change.text, text);
    assert_eq!(change.old, ["Note: a\r", " b\r"]);
    assert_eq!(change.new, ["Note: a\r", " c\r\r"]);
    Ok(())
}

#[test]
fn a_paragraph_of_the_greatest_length_has_canonical_values() -> Result<(), Error> {
    let mut text = b"Package:aa\nVersion:1\nArchitecture:all\nDepends:bb,".to_vec();
    text.resize((1 << 24) - 3, b' ');
    text.extend_from_slice(b"aa\n");
    for text in [&text[..], &text[..text.len() - 1]] {
        let all = paragraphs(Kind::Packages, text)?;
        let first = all.iter().next().expect("a paragraph")?;
        assert_eq!(first.canonical("depends")?.as_deref(), Some(&b"aa, bb"[..]));
    }
    Ok(())
}
