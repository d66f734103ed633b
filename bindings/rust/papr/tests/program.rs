//! The whole program on bytes, by the examples and their stored replies.

use papr::program::{check, drill, image, run, run_set, ProgramError, Verdict};
use papr::Layout;
use std::path::{Path, PathBuf};

fn examples() -> PathBuf {
    Path::new(env!("CARGO_MANIFEST_DIR")).join("../../../examples")
}

fn text_of(name: &str) -> String {
    std::fs::read_to_string(examples().join(name)).unwrap()
}

/// The examples with this ending.
fn names(ending: &str) -> Vec<String> {
    let files = std::fs::read_dir(examples()).unwrap();
    let names = files.map(|file| file.unwrap().file_name().into_string().unwrap());
    names
        .filter_map(|name| name.strip_suffix(ending).map(String::from))
        .collect()
}

#[test]
fn the_replies_are_those_of_the_examples() {
    let all = names(".trace");
    assert!(all.len() > 20);
    for name in all {
        let replies = text_of(&format!("{name}.replies"));
        let expected = match replies.starts_with("papr: ") {
            true => Err(ProgramError::Refused(replies)),
            false => Ok(replies),
        };
        assert_eq!(run(&text_of(&format!("{name}.trace"))), expected, "{name}");
    }
}

#[test]
fn the_verdicts_are_those_of_the_examples() {
    let all = names(".judged");
    assert!(all.len() > 5);
    for name in all {
        let judged = text_of(&format!("{name}.judged"));
        let (trace, replies) = judged.split_once("\nreplies\n").unwrap();
        let told = match check(trace, replies).unwrap() {
            Verdict::Good => "good\n".to_string(),
            Verdict::BadSection(section) => format!("bad section {section}\n"),
        };
        assert_eq!(told, text_of(&format!("{name}.verdict")), "{name}");
    }
}

#[test]
fn images_sets_and_drills() {
    let old = image(&text_of("entries.trace"), Layout::Old);
    assert_eq!(old, Ok(text_of("entries.image-old")));
    let new = image(&text_of("image-new.trace"), Layout::New);
    assert_eq!(new, Ok(text_of("image-new.image-new")));
    let replies = run_set(&text_of("two-partitions.set"));
    assert_eq!(replies, Ok(text_of("two-partitions.set-replies")));
    assert_eq!(drill(1, 100_000), Ok(text_of("drill.summary")));
}

#[test]
fn refusals() {
    let refused = run("order 18\norder 18\n").unwrap_err();
    assert_eq!(refused.to_string(), "papr: line 2: place");
    assert_eq!(
        refused,
        ProgramError::Refused("papr: line 2: place\n".into())
    );
    let usage = drill(1, 100_001).unwrap_err();
    assert_eq!(usage, ProgramError::Usage("papr: usage\n".into()));
}
