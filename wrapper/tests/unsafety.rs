//! All that is unsafe stands in `boundary.rs`, and each of its places says why it is sound.

use std::fs;
use std::path::Path;

/// The lines of a source file without their comments, and the comments.
fn lines(source: &str) -> impl Iterator<Item = (&str, &str)> {
    source.lines().map(|line| match line.split_once("//") {
        Some((code, comment)) => (code, comment),
        None => (line, ""),
    })
}

#[test]
fn only_the_boundary_is_unsafe() {
    let src = Path::new(env!("CARGO_MANIFEST_DIR")).join("src");
    let mut files = 0;
    for file in fs::read_dir(src).unwrap() {
        let path = file.unwrap().path();
        let source = fs::read_to_string(&path).unwrap();
        files += 1;
        let found = lines(&source).filter(|(code, _)| code.contains("unsafe"));
        match path.file_name().unwrap().to_str().unwrap() {
            "boundary.rs" => {}
            "lib.rs" => assert!(found.eq([("#![deny(unsafe_code)]", "")])),
            name => assert_eq!(found.count(), 0, "{name}"),
        }
    }
    assert!(files > 1);
}

#[test]
fn each_unsafe_block_says_why_it_is_sound() {
    let source = include_str!("../src/boundary.rs");
    let lines: Vec<_> = lines(source).collect();
    let mut blocks = 0;
    for (at, (code, _)) in lines.iter().enumerate() {
        if code.contains("unsafe {") {
            blocks += 1;
            let above = lines[..at].iter().rev();
            let said =
                above.take_while(|(code, comment)| code.trim().is_empty() && !comment.is_empty());
            assert!(
                said.into_iter()
                    .any(|(_, comment)| comment.starts_with(" SAFETY: ")),
                "line {}",
                at + 1
            );
        }
    }
    assert_eq!(blocks, 7);
}
