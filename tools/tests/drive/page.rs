//! The page README.md.

/// In the page a command stands behind `$`, and what it prints below it.
pub fn page_shows(words: &str, printed: &str) {
    let page = std::fs::read_to_string("README.md").expect("the page");
    let lines = printed.lines().map(|line| format!("    {line}\n"));
    let block = format!("    $ drive {words}\n{}", lines.collect::<String>());
    assert!(page.contains(&block.replace("    \n", "\n")), "{block}");
}
