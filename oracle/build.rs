//! Takes the original text at build time from the directory of the sources: the one that
//! EXTREAD_SEEDS names, else DEFAULT. Both are read relative to this folder.
//!
//! A whole file is copied byte for byte. From a file of which most is not wanted, runs of
//! lines are cut out, also byte for byte. Nothing is replaced or left out inside a run.

use std::path::{Path, PathBuf};
use std::{env, fs};

const VAR: &str = "EXTREAD_SEEDS";
const DEFAULT: &str = "seeds";
/// The commit that the list of the sources must name.
const COMMIT: &str = "0212f7255e";

/// Files compiled whole: (path in the repository, place under OUT_DIR/seed).
const WHOLE: &[(&str, &str)] = &[
    ("collator/src/collator/anchors_cache.rs", "anchors_cache.rs"),
    ("collator/src/collator/messages_buffer.rs", "messages_buffer.rs"),
    ("collator/src/collator/messages_reader/externals_reader.rs", "externals_reader.rs"),
    ("collator/src/collator/messages_reader/state/ext/mod.rs", "ext/mod.rs"),
    (
        "collator/src/collator/messages_reader/state/ext/partition_range_reader.rs",
        "ext/partition_range_reader.rs",
    ),
    (
        "collator/src/collator/messages_reader/state/ext/partition_reader.rs",
        "ext/partition_reader.rs",
    ),
    ("collator/src/collator/messages_reader/state/ext/range_reader.rs", "ext/range_reader.rs"),
    ("collator/src/collator/messages_reader/state/ext/reader.rs", "ext/reader.rs"),
    ("collator/src/internal_queue/types/router.rs", "router.rs"),
    ("collator/src/tracing_targets.rs", "tracing_targets.rs"),
];

/// Runs of lines cut out: (path in the repository, place, runs), a run being
/// (text at which it begins, text before which it ends, or "" for the end of the file).
type Run = (&'static str, &'static str);
const CUT: &[(&str, &str, &[Run])] = &[
    ("collator/src/mempool/mod.rs", "mempool.rs", &[("// === Types ===\n", "")]),
    (
        "collator/src/collator/messages_reader/mod.rs",
        "messages_reader.rs",
        &[
            (
                "#[derive(Debug, Clone, Copy, PartialEq, Eq)]\npub(super) enum GetNextMessageGroupMode {\n",
                "#[derive(Debug, Clone, Copy, PartialEq, Eq)]\nenum MessagesReaderStage {\n",
            ),
            ("#[derive(Default)]\npub struct MetricsTimer {\n", ""),
        ],
    ),
    (
        "collator/src/collator/types.rs",
        "collator_types.rs",
        &[
            (
                "#[derive(Debug)]\npub struct ParsedMessageInner {\n",
                "pub struct FinalizeMessagesReaderResult {\n",
            ),
            (
                "pub trait MsgsExecutionParamsExtension {\n",
                "#[derive(Debug, Default)]\npub(super) struct ExecuteMetrics {\n",
            ),
        ],
    ),
    (
        "collator/src/types.rs",
        "types.rs",
        &[
            ("pub struct DebugDisplay<T>(pub T);\n", "pub struct DebugDisplayOpt<"),
            ("pub(super) struct DisplayIter<I>(pub I);\n", "pub(super) struct DisplayIntoIter<I>"),
            ("pub(super) struct DebugIter<I>(pub I);\n", "pub(super) struct DisplayAsShortId<"),
            ("pub trait SaturatingAddAssign {\n", ""),
        ],
    ),
    (
        "collator/src/types/processed_upto.rs",
        "processed_upto.rs",
        &[
            ("pub type Lt = u64;\n", "/// Processed up to info by partitions.\n"),
            (
                "#[derive(Debug, Default, Clone, Copy)]\npub struct ExternalsRangeInfo {\n",
                "impl From<tycho_types::models::shard::ExternalsRange> for ExternalsRangeInfo {\n",
            ),
        ],
    ),
];

/// A source file may stand under its own path or under its flat name.
fn find(dir: &Path, path: &str) -> PathBuf {
    let flat = path.replace('/', "--");
    let tried = [
        dir.join(format!("src--{flat}.txt")),
        dir.join(format!("{flat}.txt")),
        dir.join(&flat),
        dir.join(path),
    ];
    match tried.iter().find(|p| p.is_file()) {
        Some(p) => p.clone(),
        None => {
            panic!("{path} was not found in the directory of the sources (see {VAR} in README.md)")
        }
    }
}

fn read(dir: &Path, path: &str) -> String {
    let file = find(dir, path);
    println!("cargo:rerun-if-changed={}", file.display());
    fs::read_to_string(&file).unwrap_or_else(|e| panic!("{path}: {e}"))
}

fn cut(path: &str, text: &str, (from, to): Run) -> String {
    assert_eq!(text.matches(from).count(), 1, "{path}: {from:?} should occur once");
    let rest = &text[text.find(from).unwrap()..];
    if to.is_empty() {
        return rest.to_owned();
    }
    let end = rest.find(to).unwrap_or_else(|| panic!("{path}: {to:?} does not follow"));
    rest[..end].to_owned()
}

fn write(place: &Path, text: &str) {
    fs::create_dir_all(place.parent().unwrap()).unwrap();
    fs::write(place, text).unwrap();
}

/// Where the sources come with their list, it must name the commit and every file taken,
/// and every file listed must be taken, with the listed number of lines (the list counts
/// the empty one after the last line break).
fn check_index(dir: &Path) {
    let index = dir.join("INDEX.md");
    println!("cargo:rerun-if-changed={}", index.display());
    let Ok(list) = fs::read_to_string(&index) else { return };
    assert!(list.contains(COMMIT), "INDEX.md does not name {COMMIT}");
    let rows: Vec<Vec<&str>> = list
        .lines()
        .map(|l| l.split('|').map(str::trim).collect::<Vec<_>>())
        .filter(|r| r.len() == 5 && r[1].starts_with("src--"))
        .collect();
    let taken: Vec<&str> = WHOLE.iter().map(|w| w.0).chain(CUT.iter().map(|c| c.0)).collect();
    for path in &taken {
        let row = rows.iter().find(|r| r[2] == *path);
        let row = row.unwrap_or_else(|| panic!("{path} is not in INDEX.md"));
        let lines = read(dir, path).split('\n').count();
        assert_eq!(lines.to_string(), row[3], "{path}: lines");
    }
    assert_eq!(rows.len(), taken.len(), "INDEX.md lists a file that is not taken");
}

fn main() {
    println!("cargo:rerun-if-changed=build.rs");
    println!("cargo:rerun-if-env-changed={VAR}");
    let named = env::var(VAR).unwrap_or_else(|_| DEFAULT.to_owned());
    let here = PathBuf::from(env::var("CARGO_MANIFEST_DIR").unwrap());
    let dir = here.join(&named);
    let dir = fs::canonicalize(&dir)
        .unwrap_or_else(|e| panic!("{named}: {e} (set {VAR} to the directory of the sources)"));
    check_index(&dir);
    let seed = PathBuf::from(env::var("OUT_DIR").unwrap()).join("seed");

    for (path, place) in WHOLE {
        write(&seed.join(place), &read(&dir, path));
    }
    for (path, place, runs) in CUT {
        let text = read(&dir, path);
        let parts: Vec<String> = runs.iter().map(|run| cut(path, &text, *run)).collect();
        write(&seed.join(place), &parts.join("\n"));
    }
    // state/ext/mod.rs begins with inner doc comments and declares files beside it,
    // so it is named by path instead of being included.
    write(
        &seed.join("ext_mod.rs"),
        &format!("#[path = {:?}]\npub mod ext;\n", seed.join("ext/mod.rs")),
    );
}
